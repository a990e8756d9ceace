"""The server of documents: HTTP and WebDAV over one session of natix."""

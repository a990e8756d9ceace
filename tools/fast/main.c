/* Turns XML into PYX lines that natix reads, and such lines into XML. Does what ../xmlpyx does, faster. */

#include "xmlpyx.h"

#include <signal.h>
#include <string.h>

static const char help[] =
    "Turns XML into PYX lines that natix reads, and such lines into XML.\n"
    "\n"
    "    xmlpyx [-v] [--keep] in < FILE.xml > FILE.pyx\n"
    "    xmlpyx out < FILE.pyx > FILE.xml\n"
    "\n"
    "`in` leaves out comments, the XML declaration and the document type; with -v it says on standard\n"
    "error what it left out. With --keep a comment becomes an instruction natix:comment, and the document\n"
    "type an instruction natix:doctype. `out` makes of these what they were, so `in` refuses a document\n"
    "that has such instructions of its own. `in` reads no other file: a reference to an entity that the\n"
    "document doesn't declare itself ends it. `out` writes UTF-8.\n"
    "\n"
    "Both work as the input comes. In memory stands a piece of at most one MiB of a text, and what expat\n"
    "takes at once: a tag, a comment or an instruction.\n"
    "\n"
    "The end of the root element is written only once the whole input is known to be good. So what\n"
    "follows in a pipe never takes a broken input for a document.\n"
    "\n"
    "Exit status: 0 all went well, 1 misuse, 2 the input is refused (standard error has the place),\n"
    "4 reading failed, 5 writing failed, 6 no memory.\n";

_Noreturn static void misuse(void)
{
    end_run(MISUSE, "usage: xmlpyx [-v] [--keep] in < FILE.xml, or xmlpyx out < FILE.pyx; --help says more");
}

int main(int count, char **words)
{
    bool verbose = false, keep = false;
    const char *direction = NULL;
    signal(SIGPIPE, SIG_IGN);
    signal(SIGXFSZ, SIG_IGN);
    for (int i = 1; i < count; i++) {
        const char *word = words[i];
        if (strcmp(word, "-h") == 0 || strcmp(word, "--help") == 0) {
            append_text(&output, help);
            flush_output();
            return DONE;
        } else if (strcmp(word, "-v") == 0) {
            verbose = true;
        } else if (strcmp(word, "--keep") == 0) {
            keep = true;
        } else if (direction == NULL && (strcmp(word, "in") == 0 || strcmp(word, "out") == 0)) {
            direction = word;
        } else {
            misuse();
        }
    }
    if (direction == NULL)
        misuse();
    if (strcmp(direction, "in") == 0)
        bring_in(verbose, keep);
    else if (keep)
        end_run(MISUSE, "--keep is for `in`: `out` makes comments and the document type of what was kept of them");
    else
        bring_out();
    return DONE;
}

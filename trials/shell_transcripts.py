"""What the shell is told, and what it says then: `> ` stands before a command, and `! ` before what comes on standard error. A line that ends with `~` is
compared up to there."""

LOOKS = r"""
> load shop.xml
shop: 9 nodes, 1 part
> load shop.xml
! line 2: shop (shop.xml): there is a document of that name: load -f puts this one in its place, --as NAME takes another name
> load --as two "two words.xml"
two: 2 nodes, 1 part
> load bad.xml
! line 4: bad (bad.xml): line 2, column 6: mismatched tag
> load none.xml
! line 5: none.xml: No such file or directory
> load dot.pyx
! line 6: dot (dot.pyx): the document has a line that is a dot, which would end it
> load half.pyx
! line 7: half (half.pyx): refused: unclosed in line 2 of the PYX: an element isn't ended
> ls
shop/ (9 nodes)
two/ (2 nodes)
> tree shop
/ #doc/ (1)
  0 shop/ (5)
    0 @lang "en"
    1 ?sort "price"
    2 item/ (1)
      0 #text "tea \\n"
    3 #text "\n"
    4 item/ (1)
      0 #text "a <cup>"
> tree -1 shop /0
/0 shop/ (5)
  0 @lang "en"
  1 ?sort "price"
  2 item/ (1)
  3 #text "\n"
  4 item/ (1)
> tree shop /0/9
! line 11: shop /0/9: refused: no-node: there is no node at that path
> cd shop /shop
> ls item[2]
0 #text "a <cup>"
> get @lang
/0/0 @lang "en"
> get item/#text
/0/2/0 #text "tea \\n"
> show item[2]/0
a <cup>
> show
<shop lang="en"><?sort price?><item>tea \n</item>
<item>a &lt;cup&gt;</item></shop>
> show two /
<two/>
> cd ../..
! line 19: there is nothing above the document
> get item[3]
! line 20: no child item[3] at shop /0
> cd @lang
! line 21: nothing stands below shop /0/0
> layout
the root weighs 18
> save shop again.xml
again.xml: 84 bytes
> save shop again.pyx
again.pyx: 79 bytes
> load again.pyx
again: 9 nodes, 1 part
> save two none/two.xml
! line 26: none/two.xml: No such file or directory
> save none two.xml
! line 27: there is no document none
> rule shop item standalone
ok
> rule shop item odd
! line 29: usage: rule PARENT CHILD ENTRY, which is standalone, cluster, free
> rule shop #none free
! line 30: refused: syntax: natix carries out no such command here
> rules
shop item standalone
> undo
taken back: rule shop item standalone
> rules
> undo
taken back: load again
> drop two
ok
> undo
taken back: drop two
> rm two
ok
> checkpoint
ok
> drop none
! line 39: there is no document none
> sho
! line 40: there is no command `sho`: show?
> # a remark
> cd
> ls
shop/ (9 nodes)
> delete shop /0/2
ok
> undo
taken back: delete shop /0/2
> get shop /0/2/0
/0/2/0 #text "tea \\n"
> load --as "of two" shop.xml
! line 47: of two (shop.xml): "of two" is no name of a document: --as NAME says one
> load "shop.xml
! line 48: the quotes: No closing quotation
"""

EDITS = r"""
> load shop.xml
shop: 9 nodes~
> cd shop /0
> retext @lang de
ok
> retext 2 de
! line 4: shop /0/2: refused: no-content: elements and the document's root have no content
> insert 2 (new
ok
> insert 2/0 @kind a\tb\\
ok
> insert 2/1 -some text
ok
> insert 0 (first
! line 8: shop /0/0: refused: bad-place: such a node can't stand there, or can't be taken from there
> insert 2 x
! line 9: 'x' is no line of PYX that says a node
> show new
<new kind="a&#9;b\">some text</new>
> cd new
> insert shop
! line 12: usage: PATH LINE
> delete ../3
ok
> delete #text
ok
> delete @kind
ok
> undo
taken back: delete shop /0/2/0
> undo
taken back: delete shop /0/2/1
> show
<new kind="a&#9;b\">some text</new>
> undo
taken back: delete shop /0/3
> delete ../3
ok
> retext 1
ok
> undo
taken back: retext shop /0/2/1~
> get 1
/0/2/1 #text "some text"
> insert ../1 -before
ok
> get 1
/0/3/1 #text "some text"
> delete .
ok
> get
/0 shop/ (5)
> delete /0
! line 28: shop /0: refused: bad-place: such a node can't stand there, or can't be taken from there
"""

SUBTREES = r"""
> load shop.xml
shop: 9 nodes, 1 part
> cd shop /0
> graft 2 <a b="c">d<e/></a>f
ok: 5 nodes
> show
<shop lang="en"><?sort price?><a b="c">d<e/></a>f<item>tea \n</item>
<item>a &lt;cup&gt;</item></shop>
> graft 0 <a/>
! line 5: shop /0/0: refused: bad-place: such a node can't stand there, or can't be taken from there
> graft 2 <a>
! line 6: line 1, column 6: mismatched tag
> graft / <a/>
! line 7: a place is said by a path, and shop / is the document's root
> graft 2 none.xml
! line 8: none.xml: No such file or directory
> graft 7 part.xml
ok: 3 nodes; left out: 1 comment
> undo
taken back: graft shop /0/7
> cd item[2]
> replace ../a <g>h</g>
ok: 2 nodes
> get
/0/6 item/ (1)
> move ../g ../7
ok: shop /0/6
> get
/0/5 item/ (1)
> get ../6
/0/6 g/ (1)
> undo
taken back: move shop /0/2 shop /0/7
> get ../g
/0/2 g/ (1)
> copy . ../2
ok: 2 nodes
> get
/0/7 item/ (1)
> get ../2/0
/0/2/0 #text "a <cup>"
> undo
taken back: copy shop /0/6 shop /0/2
> relabel thing
ok
> get
/0/6 thing/ (1)
> relabel .. SHOP
ok
> relabel ../@lang language
ok
> relabel #text x
! line 27: a text has no name
> move . 0
! line 28: shop /0/6/0 is below shop /0/6, and a node can't stand below itself
> show ..
<SHOP language="en"><?sort price?><g>h</g>f<item>tea \n</item>
<thing>a &lt;cup&gt;</thing></SHOP>
> undo
taken back: relabel shop /0/0 language
> undo
taken back: relabel shop /0 SHOP
> undo
taken back: relabel shop /0/6 thing
> undo
taken back: replace shop /0/2
> undo
taken back: graft shop /0/2
> cd
> show shop
<shop lang="en"><?sort price?><item>tea \n</item>
<item>a &lt;cup&gt;</item></shop>
> put new part.xml
new: 4 nodes, 1 part; left out: 1 comment
> put --keep new part.xml
new: 5 nodes, 1 part
> move new /0/0 shop /0/5
ok: shop /0/5
> copy shop /0/5 new /0/0
ok: 2 nodes
> put new bad.xml
! line 41: new (bad.xml): line 2, column 6: mismatched tag
> mv new old
ok
> undo
taken back: mv new old
> load -f --as new shop.xml
new: 9 nodes, 1 part
> undo
taken back: put new
> show new
<part><p>q</p><!--r--></part>
"""

TRANSACTIONS = r"""
> load shop.xml
shop: 9 nodes, 1 part
> cd shop /0
> begin
ok
> begin
! line 4: a transaction is begun already: `commit` or `rollback` ends it
> insert 2 (new
ok
> insert new/0 -some text
ok
> graft new/1 <a/>b
ok: 2 nodes
> tree new
/0/2 new/ (3)
  0 #text "some text"
  1 a/ (0)
  2 #text "b"
> mv shop store
ok
> get
/0 shop/ (6)
> undo
! line 11: `undo` stands outside of a transaction: `commit` or `rollback` ends this one
> layout
! line 12: the parts of store are known once the transaction is carried out
> ls store /0
0 @lang "en"
1 ?sort "price"
2 new/ (3)
3 item/ (1)
4 #text "\n"
5 item/ (1)
> rule shop new cluster
ok
> find store //new/#text
/0/2/0 #text "some text"
/0/2/2 #text "b"
> rm none
! line 16: there is no document none
> commit
! line 17: a command of the transaction was refused, so nothing of it is carried out
> get
/0 shop/ (5)
> rules
> begin
ok
> insert 2 (new
ok
> mv shop store
ok
> rule shop new cluster
ok
> load two.xml
two: 2 nodes, 1 part
> cp store third
third: 10 nodes, 1 part
> put two part.xml
two: 4 nodes, 1 part; left out: 1 comment
> commit
ok: 7 commands as one
> get
/0 shop/ (6)
> ls /
0 shop/ (6)
> cd
> ls
store/ (10 nodes)
third/ (10 nodes)
two/ (4 nodes)
> rules
shop new cluster
> undo
taken back: a transaction of 7 commands
> ls
shop/ (9 nodes)
> rules
> begin
ok
> rm shop
ok
> ls
> rollback
ok: 1 command left out
> ls
shop/ (9 nodes)
> commit
! line 41: no transaction is begun
> begin
ok
> commit
ok: 0 commands as one
> undo
taken back: load shop
"""

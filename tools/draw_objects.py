#!/usr/bin/env python3
"""Draws the two pictures of docs/ARCHITECTURE.md that show objects and threads, each as one SVG.

    tools/draw_objects.py objects > docs/objects.svg    # which object owns which, and the crate of each
    tools/draw_objects.py split > docs/split.svg        # a leaf that is split while another thread answers a query

Both are drawn by hand: a new type, or another order of calls, is a change here."""
import html
import sys

INK, GREY, BLUE, GREEN, RED, PALE = "#222222", "#777777", "#2a5d9f", "#2f7d4f", "#b3123c", "#f6f8fb"


def text(x, y, line, size=12, anchor="start", fill=INK, weight="normal", family="sans-serif"):
    return (f'<text x="{x}" y="{y}" font-size="{size}" text-anchor="{anchor}" fill="{fill}" font-weight="{weight}" '
            f'font-family="{family}">{html.escape(line)}</text>')


def rect(x, y, width, height, fill="white", stroke=INK):
    return f'<rect x="{x}" y="{y}" width="{width}" height="{height}" rx="4" fill="{fill}" stroke="{stroke}"/>'


def line(x1, y1, x2, y2, stroke=INK, dash="", arrow=False):
    dashed = f' stroke-dasharray="{dash}"' if dash else ""
    head = ' marker-end="url(#head)"' if arrow else ""
    return f'<line x1="{x1}" y1="{y1}" x2="{x2}" y2="{y2}" stroke="{stroke}"{dashed}{head}/>'


def picture(width, height, title, desc, parts):
    head = ('<defs><marker id="head" viewBox="0 0 8 8" refX="7" refY="4" markerWidth="8" markerHeight="8" orient="auto">'
            f'<path d="M0,0 L8,4 L0,8 z" fill="{INK}"/></marker></defs>')
    return "\n".join([f'<svg xmlns="http://www.w3.org/2000/svg" viewBox="0 0 {width} {height}" role="img" aria-labelledby="title desc">',
                      f'<title id="title">{html.escape(title)}</title>', f'<desc id="desc">{html.escape(desc)}</desc>', head,
                      f'<rect width="{width}" height="{height}" fill="white"/>', *parts, "</svg>"])


def thing(x, y, width, height, name, crate, note="", fill="white", stroke=INK):
    """A box of an object: its type, the crate that has it, and a line of what it is."""
    parts = [rect(x, y, width, height, fill, stroke), text(x + 8, y + 17, name, 13, weight="bold"),
             text(x + width - 8, y + 17, crate, 11, "end", BLUE, family="monospace")]
    return parts + ([text(x + 8, y + 33, note, 11, fill=GREY)] if note else [])


def thread(y, height, name):
    return [rect(16, y, 244, height, PALE, GREY), text(24, y + 16, name, 11, fill=GREY)]


def objects():
    parts = [text(16, 24, "A box inside another box is owned by it. A dashed arrow borrows or shares.", 13),
             text(844, 24, "blue: the crate", 12, "end", BLUE, family="monospace")]
    parts += thread(44, 104, "a thread of your program")
    parts += thing(28, 68, 220, 70, "Client", "store_client") + thing(40, 96, 196, 34, "Pass", "book_lock")
    parts += thread(164, 150, "another one, which answers a query")
    parts += thing(28, 188, 220, 62, "Client", "store_client") + thing(40, 212, 196, 30, "Pass", "book_lock")
    parts += thing(28, 260, 220, 44, "Snapshot", "commit_book", "the index as of the query's place")
    parts += thread(330, 130, "a session of play")
    parts += thing(28, 354, 220, 96, "Lane", "sessions", "its rows and its answers") + thing(40, 398, 196, 34, "Pass", "book_lock")
    parts += thing(316, 44, 528, 416, "Store", "sessions", "any number of threads borrow it", PALE)
    parts += thing(330, 86, 500, 360, "BookLock", "book_lock", "one slot, and a counter of entries; a thread that holds the lock has the book")
    parts += thing(344, 130, 472, 302, "Book", "commit_book", "the sequential core: one caller at a time", PALE)
    parts += thing(358, 176, 216, 164, "PointTable", "point_table")
    parts += thing(370, 202, 192, 60, "KdTrie, QuadTrie", "", "objects by key, in leaves") + [text(378, 252, "kd_trie, quad_trie", 11, fill=BLUE, family="monospace")]
    parts += thing(370, 272, 192, 60, "MemberShards", "", "objects by id, with moments") + [text(378, 322, "plain_list", 11, fill=BLUE, family="monospace")]
    parts += thing(358, 348, 216, 34, "History", "commit_book", "") + thing(358, 388, 216, 34, "OpenSplits", "commit_book", "")
    parts += thing(588, 176, 216, 246, "Journal", "kept_log", "the log, or none")
    parts += thing(600, 220, 192, 194, "SplitLog", "split_log", "appends records")
    parts += thing(612, 264, 168, 142, "a drive", "disk_trait", "write, sync, cut, read")
    parts += [text(620, 322, "FileDisk", 12, weight="bold"), text(772, 322, "disk_file", 11, "end", BLUE, family="monospace"),
              text(620, 342, "MemDisk", 12, weight="bold"), text(772, 342, "disk_mem", 11, "end", BLUE, family="monospace"),
              rect(622, 358, 148, 36, PALE, GREY), text(696, 381, "the log file", 12, "middle", GREY)]
    parts += [line(260, y, 314, y, dash="5 3", arrow=True) for y in (100, 205, 400)]
    parts += [text(287, 94, "borrows", 10, "middle", GREY), text(287, 199, "borrows", 10, "middle", GREY), text(287, 394, "borrows", 10, "middle", GREY)]
    parts += [line(248, 282, 368, 240, dash="5 3", arrow=True), text(287, 290, "shares", 10, "middle", GREY)]
    return picture(860, 476, "Objects of a store, and who owns whom",
                   "Each thread owns a Client or a Lane, which owns a Pass and borrows the Store. The Store owns the BookLock, which owns the Book. "
                   "The Book owns the PointTable (the index and the objects by id), the History, the OpenSplits and the Journal. The Journal owns the "
                   "SplitLog, which owns a drive, which owns the log file. A Snapshot shares the index with the Book.", parts)


COLUMNS = {"A": 150, "book": 380, "C": 590, "B": 720}


def call(y, who, name, answer, entry):
    """A call under the lock: out, the entry in the book, and back."""
    x, book = COLUMNS[who], COLUMNS["book"]
    side = -1 if x < book else 1
    edge = book + 66 * side
    middle = (COLUMNS["A" if side < 0 else "C"] + edge) / 2
    out = [line(x - 6 * side, y, edge, y, arrow=True), text(middle, y - 4, name, 11, "middle", family="monospace"),
           line(edge, y + 26, x - 6 * side, y + 26, GREY, "4 3", True), text(middle, y + 40, answer, 11, "middle", GREY)]
    return out + [rect(book - 66, y - 6, 132, 38, "#fff4e5", "#c77700"), text(book, y + 10, entry[0], 11, "middle", weight="bold"),
                  text(book, y + 25, entry[1], 11, "middle", GREY)]


def work(who, top, bottom, lines):
    x = COLUMNS[who]
    side, anchor = (-14, "end") if who == "A" else (14, "start")
    return [rect(x - 6, top, 12, bottom - top, "#dcebdf", GREEN)] + [text(x + side, top + 16 + 15 * i, words, 11, anchor, GREEN) for i, words in enumerate(lines)]


def split():
    height = 540
    parts = [text(16, 24, "Time runs downwards. An orange box holds the lock: it shows the entry that it adds, by number. Green is work outside the lock.", 13)]
    for who, name in (("A", "thread A"), ("book", "the book, under the lock"), ("C", "thread C"), ("B", "thread B")):
        x = COLUMNS[who]
        parts += [text(x, 54, name, 13, "middle", weight="bold"), line(x, 62, x, height - 12, "#bbbbbb")]
    parts += call(86, "A", "update: put 5", "done; leaf 0 is full", ("1 Call put 5", "place 1"))
    parts += call(152, "A", "begin: leaf 0", "ticket: its rows", ("2 Begin 1, leaf 0", "no place"))
    parts += call(218, "B", "snapshot: box", "index, leaf 0 whole", ("3 Call box", "place 2"))
    parts += call(284, "C", "update: put 9", "done", ("4 Call put 9", "place 3"))
    parts += call(350, "A", "install: children", "ok", ("5 Install 1", "no place"))
    parts += call(460, "B", "snapshot: box", "index, two children", ("6 Call box", "place 4"))
    parts += work("A", 184, 344, ["prepare: cuts the", "ticket's rows into", "two children,", "outside the lock"])
    parts += work("B", 250, 430, ["found_in: reads", "its own index,", "outside the lock;", "sees leaf 0", "whole, and no 9"])
    parts += [text(COLUMNS["book"], 402, "put 9 goes to the child", 11, "middle", "#c77700"), text(COLUMNS["book"], 417, "over its key", 11, "middle", "#c77700")]
    return picture(880, height, "A split while a query runs",
                   "Thread A puts object 5 and learns that leaf 0 is full. It begins the split under the lock and gets the leaf's rows. Outside the lock it cuts "
                   "them into two children. Meanwhile thread B takes a snapshot of the index under the lock and answers a box from it outside the lock, and thread "
                   "C puts object 9 into the leaf. Thread A installs the children under the lock, and object 9 goes to the child over its key. B's first box sees the whole leaf "
                   "without object 9; its next box sees the two children.", parts)


def main():
    pictures = {"objects": objects, "split": split}
    if len(sys.argv) != 2 or sys.argv[1] not in pictures:
        sys.exit(__doc__)
    print(pictures[sys.argv[1]]())


main()

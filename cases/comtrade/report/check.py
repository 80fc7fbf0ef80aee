"""Whether a report has what other commands print: python3 check.py COMTRADE REPORT FOLDER"""
import html.parser
import pathlib
import re
import subprocess
import sys


class Reader(html.parser.HTMLParser):
    """The tables (rows of cells), the blocks, the pages and the number of pictures of a report, and the addresses that it names."""

    def __init__(self):
        super().__init__()
        self.tables, self.blocks, self.pages, self.pictures, self.addresses, self.into, self.deep = [], [], [], 0, [], None, []

    def handle_starttag(self, tag, attributes):
        known = dict(attributes)
        self.addresses += [known[it] for it in ("src", "href") if it in known]
        if tag == "table":
            self.tables.append([])
        elif tag == "tr":
            self.tables[-1].append([])
        elif tag in ("td", "th"):
            self.tables[-1][-1].append("")
            self.into = "cell"
        elif tag == "pre":
            self.blocks.append("")
            self.into = "block"
        elif tag == "iframe":
            self.pages.append(known["srcdoc"])
        elif tag == "svg":
            self.pictures += 1
        if tag not in ("meta", "br"):
            self.deep.append(tag)

    def handle_startendtag(self, tag, attributes):
        pass

    def handle_endtag(self, tag):
        if self.deep.pop() != tag:
            print("tags are not nested at", tag, self.getpos())
            sys.exit(1)
        if tag in ("td", "th", "pre"):
            self.into = None

    def handle_data(self, data):
        if self.into == "cell":
            self.tables[-1][-1][-1] += data
        elif self.into == "block":
            self.blocks[-1] += data


def said(*words):
    return subprocess.run([sys.argv[1], *words], capture_output=True, text=True).stdout


def words(text):
    return re.sub(r"\s+", " ", text).strip()


def rows_in(lines, tables):
    """How many of the lines are a row of a table, by their words."""
    known = {words(" ".join(row)) for table in tables for row in table}
    return sum(words(line) in known for line in lines)


def main():
    report, folder = pathlib.Path(sys.argv[2]), sys.argv[3]
    reader = Reader()
    reader.feed(report.read_text())
    print("open tags:", len(reader.deep), "addresses:", len(reader.addresses))
    for command in ("list", "events", "fault"):
        lines = [line for line in said(command, folder).splitlines() if line.startswith("  ")]
        print(command, "rows:", rows_in(lines, reader.tables), "of", len(lines))
    long = said("fault", "--long", folder).split("\n\n")[:-1]
    print("fault blocks:", sum(words(block) in map(words, reader.blocks) for block in long), "of", len(long))
    names = [path for path in sorted(pathlib.Path(folder).iterdir()) if path.suffix.lower() == ".cfg"]
    pages = [page for page in (said("page", str(path)) for path in names) if page]
    print("pages:", sum(page in reader.pages for page in pages), "of", len(pages), "pictures:", reader.pictures)
    text = report.read_text()
    pictures = [picture for picture in (said("plot", str(path)) for path in names) if picture]
    print("pictures:", sum(picture in text for picture in pictures), "of", len(pictures))
    version = said("--version").split(" ", 1)[1].strip()
    print("version:", f"Made by comtrade {version}." in text)


main()

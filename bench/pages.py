"""What the reports share: tables in Markdown, put into a page of docs/ between its two marks, and how a report ends in an error."""
import os
import sys

END = "<!-- end of the table -->"


def fail(message):
    sys.exit(f"error: {message}")


def table(head, rows):
    lines = [head, ["---"] * len(head), *rows]
    return ["| " + " | ".join(cells) + " |" for cells in lines]


def write_between_marks(path, command, lines):
    """Replaces what the command wrote there before."""
    begin = f"<!-- table: written by {command} -->"
    with open(path, encoding="utf-8") as file:
        text = file.read()
    if text.count(begin) != 1 or text.count(END) != 1:
        fail(f"{path} hasn't the marks '{begin}' and '{END}' once each")
    before, rest = text.split(begin)
    after = rest.split(END)[1]
    with open(path, "w", encoding="utf-8") as file:
        file.write(before + begin + "\n" + "\n".join(lines) + "\n" + END + after)


def write_page(docs, study, lines, plot):
    """What a study found: its tables into its page, its plot beside it, and the tables shown."""
    page = os.path.join(docs, f"{study.upper()}.md")
    picture = os.path.join(docs, f"{study}.svg")
    write_between_marks(page, f"bench/{study}", lines)
    with open(picture, "w", encoding="utf-8") as file:
        file.write(plot)
    print("\n".join(lines))
    print(f"written: {page} and {picture}")

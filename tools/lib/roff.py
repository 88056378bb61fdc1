"""What the scripts beside this one share that make manual pages."""
import re


def plain(text):
    """A text of a page as it is, with what roff would read as its own words escaped."""
    text = text.replace("\\", "\\e").replace("-", "\\-").replace("`", "\\(ga").replace("^", "\\(ha").replace("~", "\\(ti")
    return text.replace("'", "\\(aq")


def inline(text):
    """A paragraph's text: code and stressed words in bold or italic, links by their words."""
    found = []
    for part in re.split(r"(`[^`]+`)", text):
        if part.startswith("`") and len(part) > 2:
            found.append(f"\\fB{plain(part[1:-1].replace(chr(92) + '|', '|'))}\\fR")
            continue
        part = re.sub(r"!?\[([^\]]*)\]\([^)]*\)", r"\1", part)
        part = plain(part)
        part = re.sub(r"\*\*([^*]+)\*\*", r"\\fB\1\\fR", part)
        found.append(re.sub(r"(?<![\w*])\*([^*]+)\*(?![\w*])", r"\\fI\1\\fR", part))
    line = "".join(found)
    return "\\&" + line if line.startswith((".", "\\(aq")) else line

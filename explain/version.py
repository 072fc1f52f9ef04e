"""What --version prints. A change request of document 02 that lands adds its number here."""
VERSION = "1.0"
REQUESTS = ("2.2", "2.7")


def version_line():
    landed = "request" if len(REQUESTS) == 1 else "requests"
    return f"scr of Kengatipo {VERSION}, for sets by document 01 with {landed} {', '.join(REQUESTS)} of document 02"

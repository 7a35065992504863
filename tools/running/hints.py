"""Lines of ./run beside the program's one: where a text isn't JSON, and misspelt members."""
from documents.places import NotJson, read_json
from documents.schema import findings
from running.proving import tell

DONE, MALFORMED = 0, 5
MOST_WARNINGS = 5


def hint(status, line, data):
    """Says more of how a run on `data` ended, where more can be said."""
    try:
        document = read_json(data)
    except NotJson as error:
        if status == MALFORMED:
            tell(str(error))
        return
    if status == MALFORMED and "not JSON" in line:
        tell("no place can be told: look for half a surrogate pair (\\ud800), or a number of more than 308 digits")
    if status in (DONE, MALFORMED):
        warn_of_members(document)


def warn_of_members(document):
    """Warns of members that look like misspelt ones, each kind once."""
    told = set()
    for found in findings(document):
        if found.meant is not None and (found.member, found.meant) not in told:
            told.add((found.member, found.meant))
            tell(f"{found.place or 'the document'}: nothing reads the member '{found.member}'; is '{found.meant}' meant?")
            if len(told) == MOST_WARNINGS:
                return

"""The shapes of names and of entity texts.

A name is the extensions from below the root folder down to the object, joined by `:`. The root
folder itself is written `:`. An entity is a person, `source/id`, a group, `g:gsa/` and its name,
or one of the two internal entities.
"""

import re

ROOT = ":"
SYSTEM = "g:isa/GrouperSystem"  # may do everything
EVERYONE = "g:isa/GrouperAll"  # whatever it holds, everyone holds
GROUP_PREFIX = "g:gsa/"
LONGEST_NAME = 1000

_EXTENSION = re.compile(r"[A-Za-z0-9_.\-]{1,100}")
_SOURCE = re.compile(r"[A-Za-z0-9_.@\-]{1,32}")
_PERSON = re.compile(r"[A-Za-z0-9_.@\-]{1,32}/[A-Za-z0-9_.@\-]{1,64}")


def is_extension(text: str) -> bool:
    """1 to 100 letters, digits, `_`, `-` and `.`, all ASCII."""
    return _EXTENSION.fullmatch(text) is not None


def is_name(text: str) -> bool:
    """Extensions joined by `:`, at most 1,000 bytes in all."""
    return len(text) <= LONGEST_NAME and all(is_extension(part) for part in text.split(":"))


def is_folder_name(text: str) -> bool:
    """A name, or the root folder."""
    return text == ROOT or is_name(text)


def is_source(text: str) -> bool:
    """The source of a person: 1 to 32 bytes, `@` allowed."""
    return _SOURCE.fullmatch(text) is not None


def is_person(text: str) -> bool:
    """A source, `/`, and an id of 1 to 64 bytes."""
    return _PERSON.fullmatch(text) is not None


def is_group_entity(text: str) -> bool:
    """`g:gsa/` and whatever follows."""
    return text.startswith(GROUP_PREFIX)


def is_entity(text: str) -> bool:
    """An internal entity, a group as an entity, or a person."""
    if is_group_entity(text):
        return is_name(text[len(GROUP_PREFIX):])
    return text in (SYSTEM, EVERYONE) or is_person(text)


def is_object(text: str) -> bool:
    """An entity where it has a `/`, else a folder's or another object's name."""
    return is_entity(text) if "/" in text else is_folder_name(text)


def join(folder: str, extension: str) -> str:
    """The name of what has this extension directly in the folder."""
    return extension if folder == ROOT else f"{folder}:{extension}"


def folder_of(name: str) -> str:
    """The folder's name that a name speaks of."""
    return name.rpartition(":")[0] or ROOT


def extension_of(name: str) -> str:
    """The last extension of a name."""
    return name.rpartition(":")[2]

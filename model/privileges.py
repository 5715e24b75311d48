"""Privileges: which there are, on which kinds of objects, and which gives which others."""

from enum import IntEnum
from typing import Dict, Set

from kinds import Kind


class Privilege(IntEnum):
    """All privileges, by the names and in the order in which replies show them."""

    ADMIN = 1
    UPDATE = 2
    READ = 3
    VIEW = 4
    OPTIN = 5
    OPTOUT = 6
    groupAttrRead = 7
    groupAttrUpdate = 8
    stemAdmin = 9
    create = 10
    stemAttrRead = 11
    stemAttrUpdate = 12
    attrAdmin = 13
    attrUpdate = 14
    attrRead = 15
    attrView = 16


P = Privilege

OF_KIND: Dict[Kind, Set[Privilege]] = {
    Kind.GROUP: {
        P.ADMIN, P.UPDATE, P.READ, P.VIEW, P.OPTIN, P.OPTOUT, P.groupAttrRead, P.groupAttrUpdate,
    },
    Kind.FOLDER: {P.stemAdmin, P.create, P.stemAttrRead, P.stemAttrUpdate},
    Kind.DEFINITION: {P.attrAdmin, P.attrUpdate, P.attrRead, P.attrView},
}

# What a privilege gives besides itself. What isn't listed gives nothing more.
GIVES: Dict[Privilege, Set[Privilege]] = {
    P.ADMIN: OF_KIND[Kind.GROUP],
    P.UPDATE: {P.VIEW, P.OPTIN, P.OPTOUT},
    P.READ: {P.VIEW},
    P.OPTIN: {P.VIEW},
    P.OPTOUT: {P.VIEW},
    P.groupAttrRead: {P.VIEW},
    P.groupAttrUpdate: {P.VIEW},
    P.stemAdmin: OF_KIND[Kind.FOLDER],
    P.attrAdmin: OF_KIND[Kind.DEFINITION],
    P.attrUpdate: {P.attrView},
    P.attrRead: {P.attrView},
}

# The privilege that is meant by the admin of an object. The creator gets it.
ADMIN_OF: Dict[Kind, Privilege] = {
    Kind.GROUP: P.ADMIN,
    Kind.FOLDER: P.stemAdmin,
    Kind.DEFINITION: P.attrAdmin,
}

# What one needs to see an object. Folders and persons are seen by all.
TO_SEE: Dict[Kind, Privilege] = {Kind.GROUP: P.VIEW, Kind.DEFINITION: P.attrView}

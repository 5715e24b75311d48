"""Rights: who holds which privileges on an object in a state, who is root, and who sees what."""

from typing import Set, Tuple

from facts import Window
from kinds import EVERYONE, SYSTEM, Kind, Thing
from privileges import GIVES, OF_KIND, TO_SEE, Privilege
from state import State

WHEEL = "etc:sysadmingroup"


def has_begun(window: Window, moment: int) -> bool:
    """A grant is on from its `from`. At its `until` it is taken away, so no end is asked here."""
    return window.begins <= moment


def grants_on(state: State, thing: Thing) -> Set[Tuple[Privilege, Thing]]:
    """Privilege and holder of each grant on an object that is on, direct or inherited from a
    folder.

    An inherit counts as long as the object stands in its scope.
    """
    facts = state.facts
    direct = {
        (grant.privilege, grant.holder)
        for grant, window in facts.grants.items()
        if grant.object == thing and has_begun(window, state.moment)
    }
    inherited = {
        (inherit.privilege, inherit.holder)
        for inherit in facts.inherits
        if inherit.kind == thing.kind and facts.in_scope(thing, inherit.folder, inherit.scope)
    }
    return direct | inherited


def is_root(state: State, caller: Thing) -> bool:
    """GrouperSystem, and whoever is in the group that is named `etc:sysadmingroup` now."""
    return caller == SYSTEM or caller in state.members.get(state.names.get(WHEEL), ())


def holds(state: State, caller: Thing, holder: Thing) -> bool:
    """Whether what the holder holds is held by the caller."""
    return holder in (caller, EVERYONE) or caller in state.members.get(holder, ())


def held(state: State, caller: Thing, thing: Thing) -> Set[Privilege]:
    """The caller's privileges on an object: all of its kind for root.

    Those on an attribute are those on its definition. On a person there are none.
    """
    if thing.kind == Kind.ATTRIBUTE:
        thing = state.facts.definition_of(thing)
    if thing.kind not in OF_KIND:
        return set()
    if is_root(state, caller):
        return OF_KIND[thing.kind]
    found: Set[Privilege] = set()
    for privilege, holder in grants_on(state, thing):
        if holds(state, caller, holder):
            found |= {privilege} | GIVES.get(privilege, set())
    return found


def sees(state: State, caller: Thing, thing: Thing) -> bool:
    """Whether the thing exists for the caller."""
    if thing.kind == Kind.ATTRIBUTE:
        thing = state.facts.definition_of(thing)
    return thing.kind not in TO_SEE or TO_SEE[thing.kind] in held(state, caller, thing)

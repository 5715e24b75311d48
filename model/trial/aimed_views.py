"""Aimed histories on who sees and may do what, then and now."""

from aimed_worlds import Cases, world

CASES: Cases = [
    ("past facts are shown by present privileges", world("g h", 3) + """
        grant.add g READ uni/p1
        member.add g uni/p2
        +1
        grant.remove g READ uni/p1
        grant.add h READ uni/p1
        member.remove g uni/p2
        uni/p1: members g at=+0 => NotFound
        uni/p1: groups uni/p2 at=+0 => "groups":[]
        grant.add g ADMIN uni/p3
        uni/p3: members g at=+0 => "members":["uni/p2"]
        uni/p3: grants g at=+0 => {"holder":"uni/p1","privilege":"READ"}
        uni/p3: may g uni/p1 at=+0 => "privileges":["READ","VIEW"]
        uni/p3: may g uni/p1 => "privileges":[]
        uni/p3: may g uni/p3 at=+0 => "privileges":[]
        may g g:isa/GrouperSystem at=-1 => "privileges":[]
        may g g:isa/GrouperSystem at=+0 => ADMIN OPTOUT
        grants uni/p1 at=+2 => Future
        grants uni/p1 at=+1 => WrongKind "object"
        uni/p2: grants g:isa/GrouperSystem at=+2 => Future
        uni/p2: grants g:isa/GrouperSystem => WrongKind "object"
        uni/p2: attributes g:isa/GrouperAll => WrongKind "object"
        uni/p2: may g:isa/GrouperAll g:isa/GrouperAll => WrongKind "object"
        may : g:isa/GrouperAll => WrongKind "entity"
        may : g:gsa/g => WrongKind "entity"
        uni/p2: may : g:gsa/g => NotFound
        uni/p2: may uni/p1 uni/p2 => "privileges":[]
        uni/p2: may uni/p1 uni/p3 => Denied ROOT
        groups g:gsa/g at=+2 => Future
        groups g:gsa/g => WrongKind "subject"
    """),
    ("the wheel group goes by its name, then and now", world("w", 2) + """
        folder.add etc
        group.add etc:sysadmingroup
        member.add etc:sysadmingroup uni/p1
        +1
        uni/p1: group.add mine
        uni/p1: admin => ok
        group.rename etc:sysadmingroup old
        uni/p1: admin => Denied ROOT
        uni/p1: log c1 5 => NotFound
        +2
        member.add w uni/p2
        group.rename w sysadmingroup
        +3
        group.move sysadmingroup etc
        uni/p2: admin => ok
        +4
        uni/p2: folder.rename etc etd
        uni/p2: admin => Denied ROOT
        may : uni/p1 at=+0 => stemAdmin
        may : uni/p1 at=+1 => "privileges":[]
        may : uni/p2 at=+2 => "privileges":[]
        may : uni/p2 at=+3 => stemAdmin
        may : uni/p2 at=+4 => "privileges":[]
    """),
    ("an inherited privilege goes with a move, and is found in the past", world("", 2) + """
        folder.add a
        folder.add b
        folder.add a:c
        group.add a:c:g
        inherit.add a group SUB READ uni/p1
        inherit.add a:c group ONE READ uni/p1
        inherit.add b group ONE UPDATE uni/p1
        inherit.add a folder ONE create uni/p2
        uni/p1: members a:c:g => ok
        +1
        folder.move a:c b
        uni/p1: members b:c:g => ok
        +2
        group.move b:c:g b
        uni/p1: members b:g => Denied READ
        +3
        inherit.remove b group ONE UPDATE uni/p1
        uni/p1: members b:g => NotFound
        grants b:g at=+1 => READ
        grants b:g at=+2 => UPDATE
        grants b:g at=+3 => "grants":[]
        +4
        folder.delete b:c
    """),
    ("a hidden group counts as found where its row or grant is to be changed",
     world("g h w", 2) + """
        grant.add g UPDATE uni/p1
        grant.add w ADMIN uni/p1
        member.add g g:gsa/h
        grant.add w READ g:gsa/h
        folder.add a
        grant.add a stemAdmin uni/p1
        inherit.add a group ONE READ g:gsa/h
        uni/p1: member.add g g:gsa/h => NotFound "h"
        uni/p1: member.window g g:gsa/h => ok
        uni/p1: member.remove g g:gsa/h => ok
        uni/p1: member.remove g g:gsa/h => NotFound
        uni/p1: grant.add w READ g:gsa/h => NotFound
        uni/p1: grant.remove w VIEW g:gsa/h => NotFound
        uni/p1: grant.remove w READ g:gsa/h => ok
        uni/p1: inherit.remove a group SUB READ g:gsa/h => NotFound
        uni/p1: inherit.remove a folder ONE READ g:gsa/h => NotFound
        uni/p1: inherit.remove a group ONE READ g:gsa/h => ok
        uni/p1: rule.remove_lost h g => NotFound "h"
        uni/p1: rule.remove_lost g g => Denied ROOT
        grant.add h VIEW uni/p1
        uni/p1: member.add g g:gsa/h => Denied "h" READ
        uni/p1: composite.set g complement w h => Denied "h" READ
        uni/p1: group.add h => Denied create
        grant.remove h VIEW uni/p1
        grant.add : create uni/p1
        uni/p1: group.add h => Taken
    """),
    ("persons put themselves in by OPTIN and take themselves out by OPTOUT", world("g", 2) + """
        grant.add g VIEW uni/p2
        uni/p2: member.add g uni/p2 => Denied OPTIN
        uni/p2: member.remove g uni/p2 => Denied OPTOUT
        uni/p2: member.window g uni/p2 => Denied UPDATE
        uni/p2: member.add g uni/p1 => Denied UPDATE
        grant.add g OPTIN uni/p2
        uni/p2: member.add g uni/p2 => ok
        uni/p2: member.remove g uni/p2 => Denied OPTOUT
        grant.add g OPTOUT uni/p2
        uni/p2: member.remove g uni/p2 => ok
        g:isa/GrouperSystem: member.add g g:isa/GrouperSystem => WrongKind
    """),
    ("assignments then, of attributes and definitions that are gone", world("g", 2) + """
        folder.add a
        attrdef.add a:d group,subject,folder true timestamp true
        attrdef.add e group false integer false
        attr.add a:t a:d
        attr.add u e
        assign.add a:t g => "id":1
        assign.add u g => "id":2
        assign.add u g => Already
        assign.add u a => WrongOwner
        assign.add a:t g => "id":3
        assign.add a:t uni/p1 => "id":4
        assign.add a:t g:gsa/g => WrongKind "object"
        +1
        value.add a:t g 1 2025-09-01T00:00:00.1Z => ok
        value.add a:t g 1 2025-09-01T00:00:00Z => ok
        value.add a:t g 1 2025-09-01T00:00:00.10Z => ok
        value.add a:t g 1 2025-13-01T00:00:00Z => WrongValue
        value.add u g 2 -9223372036854775808 => ok
        value.add u g 2 5 => Single
        value.add u g 2 x => WrongValue
        value.add a:t g 2 2025-09-01T00:00:00Z => NoSuch
        +2
        value.remove a:t g 1 2025-09-01T00:00:00.100000Z => ok
        value.remove a:t g 1 x => NoSuch
        attributes g => 00:00:00.000000Z","2025-09-01T00:00:00.100000Z
        +3
        grant.add g groupAttrRead uni/p2
        grant.add a:d attrRead uni/p2
        grant.add e attrRead uni/p2
        attr.delete u => InUse "assignment"
        attrdef.delete e => InUse "attribute"
        assign.remove u g 2 => ok
        attr.delete u => ok
        +4
        uni/p2: attributes g at=+0 => "id":1 "id":2 "id":3
        attrdef.delete e => ok
        uni/p2: attributes g at=+0 => {"assignments":[{"attribute":"a:t","id":1,"values":[]},{
        attributes g at=+1 => "id":2,"values":[-9223372036854775808]
        folder.rename a b
        +5
        group.delete g
        attributes g at=+0 => NotFound
        attr.delete b:t => InUse "assignment"
    """),
]

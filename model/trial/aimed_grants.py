"""Aimed histories on the dates of grants."""

from aimed_worlds import Cases, world

LAST = "9999-12-31T23:59:59.999999Z"
BEFORE_LAST = "9999-12-31T23:59:59.999998Z"

CASES: Cases = [
    ("a grant is on from its begin, and at its end it goes", world("g", 2) + """
        grant.add g READ uni/p1 from=+3 until=+5
        | grant.add g uni/p1 3
        uni/p1: members g => NotFound "g"
        grants g => {"grants":[],"ok":true}
        may g uni/p1 => "privileges":[]
        +2
        uni/p1: members g => NotFound
        +3
        uni/p1: members g => ok
        grants g => {"grants":[{"holder":"uni/p1","privilege":"READ"}],"ok":true}
        may g uni/p1 => "privileges":["READ","VIEW"]
        uni/p1: members g at=+0 => ok
        | group.add g 0
        | grant.add g uni/p1 3
        +4
        uni/p1: members g => ok
        +5
        uni/p1: members g => NotFound
        | grant.add g uni/p1 3
        | grant.remove g uni/p1 3
        grants g at=+2 => "grants":[]
        grants g at=+3 => READ
        grants g at=+4 => READ
        grants g at=+5 => "grants":[]
        may g uni/p1 at=+4 => VIEW
        may g uni/p1 at=+5 => "privileges":[]
        grant.remove g READ uni/p1 => NoSuch
        grant.add g READ uni/p1 => ok
        grants g at=+4 => READ
        grants g at=+5 => READ
    """),
    ("a grant's end is after now and after its begin, which is judged before kinds",
     world("g", 2) + """
        +10
        grant.add g READ uni/p1 until=+10 => BadWindow
        grant.add g READ uni/p1 from=+5 until=+10 => BadWindow
        grant.add g READ uni/p1 from=+11 until=+11 => BadWindow
        grant.add g READ uni/p1 from=+12 until=+11 => BadWindow
        grant.add g READ g:isa/GrouperSystem until=+1 => BadWindow
        grant.add g READ g:isa/GrouperSystem until=+11 => WrongKind "holder"
        grant.add g create uni/p1 until=+1 => BadWindow
        grant.add g create uni/p1 until=+11 => WrongKind "privilege"
        grant.add uni/p1 READ uni/p1 until=+1 => BadWindow
        grant.add uni/p1 READ uni/p1 from=+1 => WrongKind "object"
        grant.add g READ uni/p9 until=+1 => NotFound "uni/p9"
        uni/p2: grant.add g READ uni/p1 until=+1 => NotFound "g"
        uni/p2: grant.add : create uni/p1 until=+1 => Denied stemAdmin
        grant.add g READ uni/p1 until=10 => BadMoment "until"
        grant.add g READ uni/p1 from=now until=10 => BadMoment "from"
        grant.remove g READ uni/p1 until=+11 => BadRequest "until"
        grant.add g READ uni/p1 from=-1000 until=+11 => ok
        uni/p1: members g => ok
        grant.add g READ uni/p1 until=+1 => BadWindow
        grant.add g READ uni/p1 => Already
        grants g at=+9 => "grants":[]
        grants g at=+10 => READ
        +11
        uni/p1: members g => NotFound
        grant.add g READ uni/p1 from=+12 until=+13 => ok
        +12
        uni/p1: members g => ok
    """),
    ("a grant that stands counts, on or not", world("g h", 2) + """
        grant.add g READ g:gsa/h from=+5
        grant.add g READ g:gsa/h => Already
        grant.add g READ g:gsa/h from=+9 until=+10 => Already
        group.delete h => InUse "holder"
        grant.add g ADMIN uni/p1
        uni/p1: grant.add g VIEW g:gsa/h => NotFound "h"
        uni/p1: grant.remove g VIEW g:gsa/h => NotFound "h"
        uni/p1: grant.remove g READ g:gsa/h => ok
        | grant.add g uni/p1 1
        | grant.remove g g:gsa/h 3
        uni/p1: grant.remove g READ g:gsa/h => NotFound "h"
        grant.remove g READ g:gsa/h => NoSuch
        group.delete h => ok
        +5
        grants g => {"grants":[{"holder":"uni/p1","privilege":"ADMIN"}],"ok":true}
        admin
        | grant.remove g g:gsa/h 3
        | group.delete h 0
    """),
    ("rows, grants and what rules do at one date are one step", world("g h", 3) + """
        folder.add a
        folder.add b
        attrdef.add d group true text true
        rule.remove_lost g h
        member.add h uni/p1
        member.add g uni/p1 until=+4
        grant.add d attrRead uni/p1 until=+4
        grant.add h VIEW uni/p1 until=+4
        grant.add g READ g:gsa/h until=+4
        grant.add g READ uni/p2 until=+4
        grant.add g READ uni/p1 until=+4
        grant.add g READ g:isa/GrouperAll until=+4
        grant.add g ADMIN uni/p3 until=+4
        grant.add b stemAdmin uni/p1 until=+4
        grant.add b create uni/p1 until=+4
        grant.add a create uni/p1 until=+4
        grant.add g VIEW uni/p2 from=+4
        grant.add g UPDATE uni/p2 until=+5
        +6
        admin
        | row.remove g uni/p1 0
        | grant.remove a uni/p1 10
        | grant.remove b uni/p1 9
        | grant.remove b uni/p1 10
        | grant.remove g uni/p3 1
        | grant.remove g g:isa/GrouperAll 3
        | grant.remove g uni/p1 3
        | grant.remove g uni/p2 3
        | grant.remove g g:gsa/h 3
        | grant.remove h uni/p1 4
        | grant.remove d uni/p1 15
        | row.remove h uni/p1 1
        | member.end g uni/p1 0
        | member.end h uni/p1 0
        | grant.remove g uni/p2 2
        grants g at=+4 => "UPDATE"},{"holder":"uni/p2","privilege":"VIEW"}],
        grants g => {"grants":[{"holder":"uni/p2","privilege":"VIEW"}],"ok":true}
    """),
    ("who manages for a time; what was done then stays", world("g", 3) + """
        grant.add g VIEW g:isa/GrouperAll
        grant.add g ADMIN uni/p1 from=+2 until=+4
        grant.add : create uni/p1 until=+4
        uni/p1: member.add g uni/p2 => Denied "UPDATE"
        +2
        uni/p1: member.add g uni/p2 => ok
        uni/p1: grant.add g READ uni/p2 from=+6 until=+8 => ok
        uni/p1: grant.remove g ADMIN uni/p1 => ok
        uni/p1: member.add g uni/p3 => Denied
        grant.add g ADMIN uni/p1 until=+4
        uni/p1: group.add mine => ok
        +4
        uni/p1: member.add g uni/p3 => Denied "UPDATE"
        uni/p1: group.add more => Denied "create"
        uni/p1: member.add mine uni/p3 => ok
        members g => uni/p2
        uni/p2: members g => Denied "READ"
        +7
        uni/p2: members g => uni/p2
        +8
        uni/p2: members g => Denied "READ"
    """),
    ("a group's grant and its members have dates of their own", world("g h", 1) + """
        grant.add g READ g:gsa/h from=+3 until=+7
        member.add h uni/p1 from=+2 until=+4
        +2
        uni/p1: members g => NotFound
        +3
        uni/p1: members g => ok
        +4
        uni/p1: members g => NotFound
        | row.remove h uni/p1 0
        | member.end h uni/p1 0
        member.add h uni/p1
        uni/p1: members g => ok
        +7
        uni/p1: members g => NotFound
        | member.begin h uni/p1 0
        | grant.remove g g:gsa/h 3
        may g uni/p1 at=+3 => READ
        may g uni/p1 at=+6 => READ
    """),
    ("an inherit that gives the same goes on where a grant ends", world("g", 1) + """
        inherit.add : group SUB READ uni/p1
        grant.add g READ uni/p1 from=+2 until=+5
        grants g => {"grants":[{"holder":"uni/p1","privilege":"READ"}],"ok":true}
        +5
        uni/p1: members g => ok
        | grant.add g uni/p1 3
        | grant.remove g uni/p1 3
        grants g at=+4 => {"grants":[{"holder":"uni/p1","privilege":"READ"}],"ok":true}
        grants g => {"grants":[{"holder":"uni/p1","privilege":"READ"}],"ok":true}
        inherit.remove : group SUB READ uni/p1
        uni/p1: members g => NotFound
    """),
    ("a grant goes with its object, and its dates are none any more", world("x g", 1) + """
        folder.add a
        attrdef.add d group true text true
        grant.add x READ uni/p1 from=+3 until=+5
        grant.add a create uni/p1 until=+5
        grant.add d attrRead uni/p1 from=+4
        group.delete x
        folder.delete a
        attrdef.delete d
        group.add x
        +9
        admin
        | definition.delete d 0
        | group.add x 0
        grants x at=+3 => "grants":[]
        uni/p1: members x => NotFound
        group.move g :
        grants x at=+9 => "grants":[]
    """),
    ("the clock is set back over dates of grants", world("g h", 2) + """
        grant.add g READ uni/p1 from=+3 until=+6
        +9
        uni/p1: members g => NotFound
        stop
        +4
        uni/p1: members g => ok
        stop
        -7
        uni/p1: members g => NotFound
        grant.add h READ uni/p2 from=+5 => ok
        +3
        uni/p1: members g => ok
        stop
        +6
        uni/p1: members g => NotFound
        uni/p2: members h => ok
        member.add h uni/p1
        stop
        uni/p1: members g => NotFound
        uni/p2: members h => uni/p1
        | grant.add h uni/p2 3
        | grant.remove g uni/p1 3
        | row.add h uni/p1 0
        | member.begin h uni/p1 0
    """),
    ("many dates come before one line, and the last of all", world("g", 2) + f"""
        grant.add g READ uni/p1 until=+2
        grant.add g VIEW uni/p1 from=+3 until=+9
        grant.add g OPTIN uni/p1 from=+4 until=+5
        grant.add g ADMIN uni/p2 from={BEFORE_LAST} until={LAST}
        grant.add g UPDATE uni/p2 from={LAST}
        +7
        grants g => {{"grants":[{{"holder":"uni/p1","privilege":"VIEW"}}],"ok":true}}
        | grant.remove g uni/p1 3
        | grant.remove g uni/p1 5
        grants g at=+1 => READ
        grants g at=+2 => "grants":[]
        grants g at=+4 => OPTIN VIEW
        {BEFORE_LAST}
        grants g => {{"grants":[{{"holder":"uni/p2","privilege":"ADMIN"}}],"ok":true}}
        {LAST}
        grants g => {{"grants":[{{"holder":"uni/p2","privilege":"UPDATE"}}],"ok":true}}
        grant.add g READ uni/p2 until={LAST} => BadWindow
        grant.add g READ uni/p2 from={LAST} => ok
    """),
    ("a command with dates is equal to one with the same dates", world("g", 1) + """
        grant.add g READ uni/p1 from=+4 until=+9 key=k => "number":4
        +5
        grant.add g READ uni/p1 from=+4 until=+9 key=k => {"number":4,"ok":true}
        grant.add g READ uni/p1 until=+9 key=k => OtherCommand "number":4
        grant.add g READ uni/p1 from=+4 key=k => OtherCommand
        +10
        grant.add g READ uni/p1 from=+4 until=+9 key=k => {"number":4,"ok":true}
        grant.add g READ uni/p1 from=+4 until=+9 => BadWindow
        uni/p1: members g => NotFound
    """),
]

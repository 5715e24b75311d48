"""Aimed histories on rules, and on what one step holds."""

from aimed_worlds import Cases, lines, world

CASES: Cases = [
    ("a rule's removal makes somebody a member; a rule undoes its own ground",
     world("base bad ok chk own", 1) + """
        composite.set ok complement base bad
        rule.remove_lost chk bad => "id":1
        member.add base uni/p1
        member.add bad uni/p1
        member.add chk uni/p1
        member.remove chk uni/p1
        | row.remove chk uni/p1 0
        | row.remove bad uni/p1 1
        | member.end bad uni/p1 0
        | member.begin ok uni/p1 0
        | member.end chk uni/p1 0
        rule.remove_lost ok own => "id":2
        member.add own uni/p1
        member.add bad uni/p1
        | row.add bad uni/p1 0
        | row.remove own uni/p1 2
        | member.begin bad uni/p1 0
        | member.end ok uni/p1 0
        | member.end own uni/p1 0
        member.remove bad uni/p1
        rule.remove_lost ok bad => "id":3
        member.add bad uni/p1
        | row.add bad uni/p1 0
        | row.remove bad uni/p1 3
    """),
    ("memberships that begin and end within one step count in its rounds",
     world("chk base bad ok x y", 1) + """
        composite.set ok complement base bad
        rule.remove_lost chk bad => "id":1
        rule.remove_lost bad base => "id":2
        rule.remove_lost ok x => "id":3
        member.add chk uni/p1
        member.add bad uni/p1
        member.add base uni/p1
        member.add x uni/p1
        member.remove chk uni/p1
        | row.remove chk uni/p1 0
        | row.remove bad uni/p1 1
        | row.remove base uni/p1 2
        | row.remove x uni/p1 3
        | member.end chk uni/p1 0
        | member.end base uni/p1 0
        | member.end bad uni/p1 0
        | member.end x uni/p1 0
        history ok => "history":[]
        rule.delete 1
        rule.delete 2
        rule.delete 3
        rule.remove_lost ok bad => "id":4
        rule.end_lost bad y 1 => "id":5
        rule.remove_lost bad x => "id":6
        member.add base uni/p1
        member.add y uni/p1
        member.add x uni/p1
        +1
        member.add bad uni/p1
        | row.add bad uni/p1 0
        | row.remove bad uni/p1 4
        | row.window y uni/p1 5
        | row.remove x uni/p1 6
        | member.end x uni/p1 0
        +2
        member.add x uni/p1
        member.add bad uni/p1 from=+3
        +3
        admin
        | row.remove bad uni/p1 4
        | row.remove x uni/p1 6
        | member.end x uni/p1 0
        member.add x uni/p1
        job.simple j bad uni 0 100
        load j SUBJECT_ID\\np1\\n => "added":1
        | row.add bad uni/p1 0
        | row.remove bad uni/p1 4
        | row.remove x uni/p1 6
        | member.end x uni/p1 0
    """),
    ("a date sets off three rounds", world("a b c d e", 2) + """
        member.add b g:gsa/a
        rule.remove_lost b c
        rule.remove_lost c d
        rule.end_lost d e 1
        rule.remove_lost e a
    """ + lines(
        *(f"member.add a uni/p{person} until=+3" for person in (1, 2)),
        *(f"member.add {group} uni/p{person}" for group in "cde" for person in (1, 2)),
    ) + """
        +3
        admin
        | row.remove a uni/p1 0
        | row.remove a uni/p2 0
        | row.remove c uni/p1 1
        | row.remove c uni/p2 1
        | row.remove d uni/p1 2
        | row.remove d uni/p2 2
        | row.window e uni/p1 3
        | row.window e uni/p2 3
    """ + lines(*(f"| member.end {g} uni/p{p} 0" for g in "abcd" for p in (1, 2))) + """
        +86400000003
        admin
        | row.remove e uni/p1 0
        | row.remove e uni/p2 0
        | member.end e uni/p1 0
        | member.end e uni/p2 0
    """),
    ("rules act by number on rows as they then are, and on those alone that are on",
     world("g h k", 3) + """
        rule.end_lost g h 1
        rule.remove_lost g h
        rule.remove_lost g k
        rule.end_lost g k 1
        member.add g uni/p1
        member.add h uni/p1
        member.add k uni/p1
        member.remove g uni/p1
        | row.remove g uni/p1 0
        | row.window h uni/p1 1
        | row.remove h uni/p1 2
        | row.remove k uni/p1 3
        | member.end g uni/p1 0
        | member.end h uni/p1 0
        | member.end k uni/p1 0
        member.add g uni/p2 until=+5
        member.add h uni/p2 from=+5
        member.add k uni/p2 from=+6
        +5
        history h => "history":[]
        | row.remove g uni/p2 0
        | row.window h uni/p2 1
        | row.remove h uni/p2 2
        | member.end g uni/p2 0
        +6
        admin
        | member.begin k uni/p2 0
        rule.delete 2
        member.add g uni/p3
        member.add h uni/p3 until=+9
        member.remove g uni/p3
        | row.remove g uni/p3 0
        | member.end g uni/p3 0
    """),
    ("an end past the greatest moment isn't set", world("g h", 1) + """
        rule.end_lost g h 1
        9999-12-30T23:59:59.999999Z
        member.add g uni/p1
        member.add h uni/p1
        member.remove g uni/p1
        rows h => "until":"9999-12-31T23:59:59.999999Z"
        member.window h uni/p1
        9999-12-31T00:00:00Z
        member.add g uni/p1
        member.remove g uni/p1
        rows h => "until":null
        9999-12-31T23:59:59.999999Z
        member.add g uni/p1 until=9999-12-31T23:59:59.999999Z => BadWindow
    """),
    ("a veto is asked of persons that are added, of the first rule, and by effective membership",
     world("g one two m", 2) + """
        rule.veto g one
        rule.veto g two
        member.add g uni/p1 => Vetoed "rule":1
        member.add one uni/p1 from=+4
        member.add g uni/p1 => "rule":1
        +4
        member.add g uni/p1 => "rule":2
        member.add two g:gsa/m
        member.add m uni/p1
        member.add g uni/p1 => ok
        member.remove m uni/p1
        member.window g uni/p1 until=+100 => ok
        member.add g g:gsa/m => ok
        rule.veto g g => "id":3
        rule.delete 1
        member.add g uni/p2 => "rule":2
        rule.delete 2
        member.add g uni/p2 => "rule":3
        member.add m uni/p2
        member.add g uni/p2 => ok
    """),
    ("the grants of on_create rules are made by number, and none twice", world("h", 2) + """
        folder.add a
        folder.add a:b
        rule.on_create a ONE READ uni/p1
        rule.on_create a SUB READ uni/p1
        rule.on_create : SUB ADMIN uni/p2
        rule.on_create : ONE VIEW g:isa/GrouperAll
        rule.on_create a:b SUB UPDATE g:gsa/h
        rule.on_create : ONE create g:isa/GrouperSystem => WrongKind "privilege"
        rule.on_create : ONE VIEW g:isa/GrouperSystem => WrongKind "holder"
        grant.add a create uni/p2
        uni/p2: group.add a:g
        | group.add a:g 0
        | grant.add a:g uni/p2 1
        | grant.add a:g uni/p1 3
        group.add a:b:g
        | group.add a:b:g 0
        | grant.add a:b:g uni/p1 3
        | grant.add a:b:g uni/p2 1
        | grant.add a:b:g g:gsa/h 2
        group.delete h => InUse "holder"
        grant.remove a:b:g UPDATE g:gsa/h
        group.delete h => InUse "rule"
        folder.delete a => InUse "rule"
        rule.delete 5
        group.delete h => ok
    """),
]

"""Aimed histories on rows and dates, loads, and the log."""

from aimed_worlds import Cases, lines, world

CASES: Cases = [
    ("circles are refused also by rows that aren't on yet", world("a b c d", 1) + """
        member.add b g:gsa/a from=+50 until=+60
        member.add a g:gsa/b => Circular "b"
        member.add a g:gsa/a => Circular "a"
        composite.set a complement b a => Circular "b"
        composite.set a complement c a => Circular "a"
        composite.set c complement b d => ok
        member.add a g:gsa/c from=+90 => Circular "c"
        member.add d g:gsa/c from=+90 => Circular "c"
        +60
        member.add b g:gsa/c => Circular "c"
        member.add a g:gsa/b => ok
        composite.clear c => ok
        member.add b g:gsa/c => ok
    """),
    ("a row's end is after now and after its begin", world("g", 1) + """
        +10
        member.add g uni/p1 until=+10 => BadWindow
        member.add g uni/p1 from=+5 until=+10 => BadWindow
        member.add g uni/p1 from=+11 until=+11 => BadWindow
        member.add g uni/p1 from=+12 until=+11 => BadWindow
        member.add g g:isa/GrouperSystem until=+1 => BadWindow
        member.add g g:isa/GrouperSystem => WrongKind "member"
        member.add g uni/p1 from=-1000 until=+11 => ok
        members g at=+9 => "members":[]
        +11
        member.add g uni/p1 from=+12 until=+13 => ok
        member.window g uni/p1 from=+13 until=+13 => BadWindow
        member.window g uni/p1 from=+13 until=+14 => ok
        member.window g uni/p2 => NotFound
        +14
        history g => 00:00:00.000013Z 00:00:00.000014Z
    """),
    ("rows that end and rows that begin at one date are one step; persons before groups",
     world("g h k", 2) + """
        member.add g g:gsa/k until=+4
        member.add g uni/p2 until=+4
        member.add g uni/p1 until=+4
        member.add h uni/p1 from=+4
        member.add k uni/p2
        member.add h g:gsa/g
        +4
        admin
        | row.remove g uni/p1 0
        | row.remove g uni/p2 0
        | row.remove g g:gsa/k 0
        | member.end g uni/p1 0
        | member.end g uni/p2 0
        | member.end h uni/p2 0
        history h => "to":null
    """),
    ("who comes and goes at one moment was never there, and who goes and comes never left",
     world("g", 1) + """
        member.add g uni/p1
        member.remove g uni/p1
        history g => "history":[]
        | row.remove g uni/p1 0
        | member.end g uni/p1 0
        +1
        member.add g uni/p1
        +2
        member.remove g uni/p1
        member.add g uni/p1
        history g => 00:00:00.000001Z "to":null
        member.remove g uni/p1
        history g => 00:00:00.000001Z 00:00:00.000002Z
        +3
        group.add x
        member.add x uni/p1
        group.delete x
        members x at=+3 => "members":[]
        history x => "history":[]
    """),
    ("the clock is set back over dates that had come", world("g h", 1) + """
        rule.remove_lost g h
        member.add g uni/p1 until=+5
        member.add h uni/p1
        +9
        members h => "members":[]
        stop
        +2
        members h => "members":["uni/p1"]
        members h at=+3 => Future
        -7
        members h at=+2 => ok
        members h at=+3 => Future
        +4
        member.window g uni/p1 until=+20
        +19
        members h => "members":["uni/p1"]
        +25
        members h => "members":[]
    """),
    ("a load's removed and added rows are one step with what the rules then do",
     world("h", 4) + """
        folder.add a
        group.add a:g
        group.add a:e
        job.list j a uni 0 100
        rule.remove_lost a:g h
        rule.remove_lost a:g a:e
    """ + lines(*(f"member.add {g} uni/p{p}" for g in ("a:g", "h") for p in (1, 2, 3))) + """
        +1
        load j GROUP_NAME,SUBJECT_ID\\na:e,p1\\na:g,p2\\na:g,p4\\n => "added":2 "removed":2
        | row.remove a:g uni/p1 0
        | row.remove a:g uni/p3 0
        | row.add a:e uni/p1 0
        | row.add a:g uni/p4 0
        | row.remove h uni/p1 1
        | row.remove a:e uni/p1 2
        | row.remove h uni/p3 1
        | member.end h uni/p1 0
        | member.end h uni/p3 0
        | member.end a:g uni/p1 0
        | member.end a:g uni/p3 0
        | member.begin a:g uni/p4 0
        load j GROUP_NAME,SUBJECT_ID\\n => "removed":2
        load j GROUP_NAME\\na:g\\n => BadTable "record":0
        load j subject_id,Group_Name\\np1,a:n\\nzed,a:m\\np1,a:n\\np1,b:n => "created":2
        load j SUBJECT_ID,GROUP_NAME\\np1,a:n\\np1\\n => BadTable "record":2
        stop
        group.add h2
        job.simple s h2 uni 2 50
        member.add h2 uni/p1
        load s SUBJECT_ID\\n => "removed":1
        member.add h2 uni/p1
        member.add h2 uni/p2
        load s SUBJECT_ID\\nzed\\n => Failsafe "before":2 "removes":2
        load s SUBJECT_ID\\np2\\n => "removed":1 "unchanged":1
        member.remove h2 uni/p2
        composite.set h2 intersection a:g a:e
        load s nothing => IsComposite "h2"
    """),
    ("a consumer's place moves by acknowledging alone", world("g", 1) + """
        consumer.ack c1 3 => Place "kept":0 "last":2
        consumer.ack c1 18446744073709551615 => Place
        consumer.ack c1 2 => ok
        consumer.ack c1 2 => ok
        consumer.ack c1 1 => Place "kept":2
        log c1 1 => "entries":[] "place":2
        member.add g uni/p1 from=+3 until=+5
        consumer.ack c1 4 => "last":3
        +3
        consumer.ack c1 4 => ok
        +5
        log c1 9 => row.remove "last":6 "place":4
        log c1 9 => row.remove "last":6 "place":4
        stop
        log c1 1 => "place":4
        uni/p1: log c1 1 => NotFound
    """),
]

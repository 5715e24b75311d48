"""Aimed histories on request keys, and on unions."""

from aimed_worlds import Cases, lines, world

MANY = "k" * 100

CASES: Cases = [
    ("a kept command is told again, over stops, and another one is refused", world("g c", 1) + """
        rule.veto g c key=k2 => "number":5 "id":1
        rule.veto g c key=k2 => {"id":1,"number":5,"ok":true}
        rule.veto g c => Already
        rule.veto c g key=k2 => OtherCommand "number":5
        group.add x key=k2 => OtherCommand "number":5
        stop
        rule.veto g c key=k2 => {"id":1,"number":5,"ok":true}
        rule.delete 1 => ok
        group.delete g => ok
        stop
        rule.veto g c key=k2 => {"id":1,"number":5,"ok":true}
        rule.veto c g key=k2 => OtherCommand
        rule.veto g c => NotFound "g"
    """),
    ("a key is the caller's own, and its letters are told apart", world("g", 2) + """
        grant.add g ADMIN uni/p1
        grant.add g ADMIN uni/p2
        uni/p1: member.add g uni/p1 key=k => "number":7
        uni/p2: member.add g uni/p2 key=k => "number":8
        member.remove g uni/p2 key=k => "number":9
        uni/p2: member.add g uni/p2 key=K => "number":10
        uni/p1: member.add g uni/p2 key=k => OtherCommand "number":7
        uni/p2: member.add g uni/p2 key=k => {"number":8,"ok":true}
        uni/p3: member.add g uni/p1 key=k => NoCaller
        g:isa/GrouperAll: member.add g uni/p1 key=k => NoCaller
    """),
    ("a refused command keeps no key", world("g", 1) + """
        uni/p1: member.add g uni/p1 key=k => NotFound
        member.add g uni/p9 key=k => NotFound
        member.add g uni/p1 until=-5 key=k => BadWindow
        uni/p1: folder.add f key=k => Denied
        member.add g uni/p1 key=k => "number":4
        member.add g uni/p9 key=k => OtherCommand "number":4
        member.add g uni/p1 until=-5 key=k => OtherCommand
    """),
    ("what is told is told whatever stands now", world("g h", 2) + """
        grant.add g UPDATE uni/p1
        uni/p1: member.add g uni/p2 key=k => "number":7
        grant.remove g UPDATE uni/p1
        uni/p1: member.add g uni/p2 => NotFound
        uni/p1: member.add g uni/p2 key=k => {"number":7,"ok":true}
        member.remove g uni/p2
        group.delete g
        uni/p1: member.add g uni/p2 key=k => {"number":7,"ok":true}
        uni/p1: member.add h uni/p2 key=k => OtherCommand "number":7
        members h => "members":[]
    """),
    ("commands are equal as they are read", world("g", 1) + """
        member.add g uni/p1 until=2025-09-02T00:00:00Z key=k1 => ok
        member.add g uni/p1 until=2025-09-02T00:00:00.000Z key=k1 => ok
        member.add g uni/p1 key=k1 => OtherCommand
        member.add g uni/p1 from=+0 until=2025-09-02T00:00:00Z key=k1 => OtherCommand
        group.add h key=k2 => ok
        group.add h display= key=k2 => ok
        group.add h display=H key=k2 => OtherCommand
        attrdef.add d folder,group true text true key=k3 => ok
        attrdef.add d group,folder true text true key=k3 => ok
        attrdef.add d group true text true key=k3 => OtherCommand
        attr.add t d => ok
        assign.add t g key=k4 => "id":1
        value.add t g 1 3 key=k5 => WrongValue
        value.add t g 1 x key=k5 => ok
        value.add t g 1 3 key=k5 => OtherCommand
        assign.add t g key=k4 => "id":1
        grant.add g READ uni/p1 key=k6 => ok
        grant.add g:gsa/g READ uni/p1 key=k6 => OtherCommand
        consumer.ack c1 1 key=k7 => ok
        consumer.ack c1 2 => ok
        consumer.ack c1 1 => Place
        consumer.ack c1 1 key=k7 => ok
    """),
    ("a key has the form of an extension", lines(
        f"subject.add uni/p1 key={MANY} => ok",
        f"subject.add uni/p1 key={MANY} => ok",
        f"subject.add uni/p2 key={MANY}k => BadName key",
        "subject.add uni/p2 key= => BadName key",
        "subject.add uni/p2 key=a:b => BadName key",
        "subject.add p2 key=a:b => BadName key",
        "members g key=k => BadRequest key",
        "job.simple j g uni 0 0 key=k => NotFound",
        "load j SUBJECT_ID key=k => BadRequest key",
    )),
    ("a union has who is in one of its factors", world("a b c u v", 3) + """
        composite.set u union a b => ok
        member.add a uni/p1
        member.add b uni/p1
        member.add b uni/p2
        members u => uni/p1 uni/p2
        rows u => {"composite":{"kind":"union","left":"a","right":"b"},"ok":true,"rows":[]}
        member.remove a uni/p1
        | row.remove a uni/p1 0
        | member.end a uni/p1 0
        members u => uni/p1 uni/p2
        member.remove b uni/p1
        | row.remove b uni/p1 0
        | member.end b uni/p1 0
        | member.end u uni/p1 0
        composite.set v complement c u => ok
        member.add c uni/p2
        member.add c uni/p3
        members v => ["uni/p3"]
        member.remove b uni/p2
        | row.remove b uni/p2 0
        | member.end b uni/p2 0
        | member.end u uni/p2 0
        | member.begin v uni/p2 0
        composite.set u union a b => IsComposite
        composite.set c union a b => HasMembers
        member.add a g:gsa/u => Circular "u"
        composite.clear v => ok
        member.remove c uni/p2
        member.remove c uni/p3
        composite.set c union u u => ok
        member.add a uni/p2 until=+5
        members c => ["uni/p2"]
        +5
        members c => []
        | row.remove a uni/p2 0
        | member.end a uni/p2 0
        | member.end c uni/p2 0
        | member.end u uni/p2 0
    """),
    ("rules act on the members of a union", world("a b u keys doors", 2) + """
        composite.set u union a b
        rule.remove_lost u keys => ok
        rule.veto doors u => ok
        member.add a uni/p1
        member.add b uni/p1
        member.add keys uni/p1
        member.add doors uni/p1 => ok
        member.add doors uni/p2 => Vetoed "rule":2
        member.remove a uni/p1
        members keys => uni/p1
        member.remove b uni/p1
        | row.remove b uni/p1 0
        | row.remove keys uni/p1 1
        | member.end b uni/p1 0
        | member.end u uni/p1 0
        | member.end keys uni/p1 0
    """),
]

"""Aimed histories on names, on what is gone or in use, and on bounds."""

from aimed_worlds import Cases, lines, world

DEEP = ":".join(["b" * 100] * 9)  # the name of a folder that is as deep as can be

CASES: Cases = [
    ("what is gone keeps the name that it had, whatever is renamed above it later",
     world("", 2) + """
        folder.add a
        folder.add a:b
        group.add a:b:g
        member.add a:b:g uni/p1
        +2
        group.rename a:b:g h
        group.delete a:b:h
        folder.rename a z
        log c1 100 => "object":"a:b:h" "object":"z"
        members a:b:h at=+1 => "members":["uni/p1"]
        members a:b:h at=+2 => "members":[]
        members a:b:h => "members":[]
        members z:b:h => NotFound
        members a:b:g at=+1 => NotFound
        uni/p1: members a:b:h at=+1 => NotFound
        rows a:b:h => NotFound
        folder.rename z a
        folder.add a:b:h
        members a:b:h at=+1 => "members":["uni/p1"]
        folder.delete a:b:h
        +4
        group.add a:b:h
        members a:b:h at=+1 => "members":[]
        member.add a:b:h uni/p2
        +6
        group.delete a:b:h
        members a:b:h at=+1 => "members":[]
        members a:b:h at=+5 => "members":["uni/p2"]
        groups uni/p1 at=+1 => "groups":[]
    """),
    ("of several gone groups of one name the one that went last is found, whatever its number",
     world("x", 2) + """
        member.add x uni/p1
        +1
        group.rename x y
        group.add x
        member.add x uni/p2
        +2
        group.delete x
        members x at=+1 => "members":["uni/p2"]
        members y at=+0 => "members":["uni/p1"]
        group.rename y x
        +3
        group.delete x
        members x at=+1 => "members":["uni/p1"]
        stop
        admin => 00:00:00.000003Z","group":"x"},{"ended":"2025-09-01T00:00:00.000002Z
        group.add u
        group.add v
        member.add u uni/p1
        +4
        group.rename v w
        group.delete w
        group.rename u w
        group.delete w
        members w at=+3 => "members":["uni/p1"]
    """),
    ("a group in use stays, and the first use is told", world("g h k f", 1) + """
        member.add h g:gsa/g
        composite.set k complement g h
        grant.add g READ g:gsa/g
        inherit.add : group ONE READ g:gsa/g
        rule.remove_lost g f
        job.simple j g uni 0 0
        group.delete g => InUse "member"
        member.remove h g:gsa/g
        group.delete g => InUse "factor"
        composite.clear k
        group.delete g => InUse "holder"
        grant.remove g READ g:gsa/g
        group.delete g => InUse "holder"
        inherit.remove : group ONE READ g:gsa/g
        group.delete g => InUse "rule"
        rule.delete 1
        group.delete g => InUse "job"
        job.delete j
        rule.end_lost f g 1
        group.delete g => InUse "rule"
        rule.delete 2
        rule.veto f g
        group.delete g => InUse "rule"
        rule.delete 3
        group.delete g => ok
    """),
    ("a folder in itself, and moves and renames that change nothing", world("g", 1) + """
        folder.add a
        folder.add a:b
        folder.add a:b:c
        folder.move a a => Circular "a"
        folder.move a a:b:c => Circular "a:b:c"
        folder.move a : => Taken "a"
        folder.rename a a => Taken
        group.rename g g => Taken
        group.move g : => Taken
        folder.add a:b:a
        folder.move a a:b => Taken "a:b:a"
        folder.rename : x => WrongKind "folder"
        folder.move : a => WrongKind "folder"
        folder.delete : => WrongKind "folder"
        uni/p1: folder.move : a => Denied ":" stemAdmin
    """),
    ("a rename or a move may make no name longer than a name may be",
     world("g", 1) + lines(
         *(f"folder.add {':'.join(['b' * 100] * depth)}" for depth in range(1, 10)),
         f"group.add {DEEP}:{'x' * 91} => ok",
         f"group.add {DEEP}:{'x' * 92} => BadName",
         f"group.rename {DEEP}:{'x' * 91} {'x' * 92} => Full \"kind\":\"name\" 1000",
         "folder.add a",
         "folder.add a:c",
         f"group.add a:c:{'y' * 91}",
         f"folder.move a {DEEP} => Full name",
         f"group.add {'z' * 92}",
         f"group.move {'z' * 92} {DEEP} => Full name",
         f"group.rename {'z' * 92} {'z' * 91} => ok",
         f"group.move {'z' * 91} {DEEP} => ok",
         f"group.rename a:c:{'y' * 91} {'y' * 87} => ok",
         f"folder.move a {DEEP} => ok",
         f"folder.rename {DEEP}:a aa => Full name",
     )),
    ("names and moments at their bounds", world("g", 1) + lines(
        f"folder.add {'e' * 100} => ok",
        f"folder.add {'e' * 101} => BadName \"folder\"",
        f"subject.add {'s' * 32}/{'i' * 64} => ok",
        f"subject.add {'s' * 33}/i => BadName \"subject\"",
        f"subject.add s/{'i' * 65} => BadName",
        f"job.simple j g {'s' * 32} 0 0 => ok",
        f"job.simple k g {'s' * 33} 0 0 => BadName \"source\"",
        "job.simple k g uni 4294967296 0 => BadRequest \"min_size\"",
        "job.simple k g uni 4294967295 101 => BadRequest \"max_percent\"",
        "job.simple k g uni 4294967295 100 => ok",
        "member.add g uni/p1 until=2025-02-29T00:00:00Z => BadMoment",
        "member.add g uni/p1 until=2026-02-28T24:00:00Z => BadMoment",
        "member.add g uni/p1 until=2026-02-28T23:59:60Z => BadMoment",
        "member.add g uni/p1 until=2026-02-28T23:59:59.1234567Z => BadMoment",
        "member.add g uni/p1 until=1969-12-31T23:59:59Z => BadMoment",
        "member.add g uni/p1 until=1970-01-01T00:00:00Z => BadWindow",
        "member.add g uni/p1 until=2028-02-29T23:59:59.12345Z => ok",
        "attrdef.add a::b group true text true => BadName \"definition\"",
        "attrdef.add d group,group true text true => BadRequest \"owners\"",
        "rule.end_lost g g 0 => BadRequest \"days\"",
        "rule.end_lost g g 3651 => BadRequest",
        "rule.end_lost g g 3650 => ok",
        "rule.delete 18446744073709551616 => BadRequest",
        "rule.delete 18446744073709551615 => NoSuch",
        "log c1 0 => BadRequest \"max\"",
        "log c1 1001 => BadRequest",
        "group.add n display=" + "d" * 255 + " => ok",
        "group.add m display=" + "d" * 256 + " => BadRequest \"display\"",
    )),
    ("a hundred consumers, and not one more", world("g", 1) + lines(
        *(f"consumer.add more{number}" for number in range(99)),
        "consumer.add c1 => Taken",
        "consumer.add another => Full \"kind\":\"consumer\" 100",
        "admin => more98",
        "stop",
        "consumer.add another => Full",
    )),
]

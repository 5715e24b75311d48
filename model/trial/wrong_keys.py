"""Wrong models of request keys and of unions. The titles say what is wrong."""

from dataclasses import replace

import keys
import members
import refusals
import registry
import requests
from operations import Operation
from wrong_rules import ALL, WrongRule, wrong

# The right functions, for wrong ones that stand on them.
combined = members.combined
earlier = keys.earlier
is_same = keys.is_same
read = requests.read
reply = registry.Registry.reply


@wrong("the caller of a key isn't looked at", keys, "earlier")
def earlier_of_anybody(accepted, request):
    found = [each for each in accepted if each.request.key == request.key is not None]
    return found[0] if found else None


@wrong("keys have no large letters", keys, "earlier")
def earlier_of_any_case(accepted, request):
    return earlier(accepted, request) or (
        earlier(accepted, replace(request, key=request.key and request.key.lower()))
    )


ALL.append(WrongRule("a key is lost", keys, "earlier", lambda accepted, request: None))
ALL.append(WrongRule("the reply is kept for another command", keys, "is_same", lambda *_: True))
ALL.append(WrongRule("a load takes a key", Operation, "takes_key", property(
    lambda operation: not operation.is_question
)))


@wrong("owners are compared in their order", keys, "is_same")
def is_same_in_order(one, other):
    return one.operation.name == other.operation.name and one.values == other.values


@wrong("a beginning that is left out is the command's moment", keys, "is_same")
def is_same_at_once(one, other):
    if one.operation.name != "member.add" or one.values[:2] != other.values[:2]:
        return is_same(one, other)
    return one.values[3] == other.values[3] and None in (one.values[2], other.values[2]) or (
        is_same(one, other)
    )


@wrong("the number is that of the last command", keys, "answer_again")
def answer_with_last(command, request):
    if not keys.is_same(command.request, request):
        raise refusals.other_command(command.reply["number"] + 1)
    return command.reply


@wrong("the id isn't told again", keys, "answer_again")
def answer_without_id(command, request):
    if not keys.is_same(command.request, request):
        raise refusals.other_command(command.reply["number"])
    return {key: told for key, told in command.reply.items() if key != "id"}


@wrong("the key is looked at behind all refusals but the last", registry.Registry, "reply")
def reply_late(self, line):
    request = requests.read(line)
    found = None if request.operation.is_question else keys.earlier(self.accepted, request)
    if found is None:
        return reply(self, line)
    at_edit = registry.Edit(self, request.by)
    request.operation.meaning(at_edit, *request.values)
    return keys.answer_again(found, request)


@wrong("keys are lost at opening", registry.Registry, "opened_again")
def opened_without_keys(self):
    again = registry.Registry()
    for command in self.accepted:
        again.answer(command.moment, command.line)
    again.accepted = [
        command._replace(request=replace(command.request, key=None)) for command in again.accepted
    ]
    return again


@wrong("a key is judged as a text alone", requests, "read")
def read_any_key(line):
    given = requests.read_object(line)
    key = given.pop("key", None)
    takes = given.get("op") in requests.OPERATIONS and (
        requests.OPERATIONS[given["op"]].takes_key
    )
    if not takes or not isinstance(key, str) or len(line) > 10_000:
        return read(line)
    return replace(read(requests.json.dumps(given)), key=key)


@wrong("a union has who is in both", members, "combined")
def union_of_both(kind, left, right):
    return combined("intersection" if kind == "union" else kind, left, right)


@wrong("a union has who is in the left", members, "combined")
def union_of_left(kind, left, right):
    return left if kind == "union" else combined(kind, left, right)

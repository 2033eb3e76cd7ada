"""An account, read slowly by the model's own broker and by no definition: each partition's history is done again entry by entry, as
the request of the call that left the entry asks it, and each call's reply is given from the partitions as they were at its points.
What the whole run has to print follows from that.
"""

import collections
from dataclasses import replace

from model.broker import broker, wire

CLOCK = 64


class Wrong(Exception):
    pass


def need(holds, what):
    if not holds:
        raise Wrong(what)


def copied(partition):
    return replace(partition, history=list(partition.history))


def kind_of(event):
    return type(event).__name__


class SlowReading:
    def __init__(self, account):
        self.account = account
        self.broker = broker.Broker(account.config.topics)
        need(account.config.port == broker.PORT, "another port")
        self.calls = {(number, seq): call for number, transcripts in enumerate(account.passes)
                      for seq, call in enumerate(call for transcript in transcripts for call in transcript.calls)}
        self.requests = {owner: self.request_of(call.frame) for owner, call in self.calls.items()}
        # by call and by partition: what became of it, from the entry that its acceptance left there
        self.became = {owner: {} for owner in self.calls}
        # the moment at each entry of the clock's history
        self.moments = self.clock()
        # by partition: the partition as it was just after each entry
        self.shown = [self.history(number, part) for number, part in enumerate(account.parts)]
        need(len(account.parts) == len(self.broker.partitions), "another number of partitions")
        need(sum(len(call.accept) + len(call.finish) for call in self.calls.values())
             == sum(kind_of(event) != "Shrink" for part in account.parts for event in part.events)
             + sum(kind_of(event) != "Tick" for event in account.clock), "a point that is no entry")

    def request_of(self, frame):
        try:
            return wire.read_request(frame)
        except wire.Refused as refused:
            raise Wrong(f"a call of a frame that is refused: {refused}") from None

    # ---- histories

    def named(self, request):
        """Each named partition: its number, or None, and what the broker's own calls take."""
        return [(self.broker.number_of(name, part[0]), (name, *part)) for name, parts in request.fields.get("topics", []) for part in parts]

    def does(self, some_broker, request, named):
        return (some_broker.append if request.key == 0 else some_broker.look)(request, *named)

    def is_accepting(self, number, place, event):
        """Whether an entry is one of its call's acceptance, or of its completion. It is one point of the call, no more."""
        call = self.calls.get((event.by, event.seq))
        need(call is not None, f"an entry of part {number} that is no call's")
        at = [[(point.part, point.place) for point in points].count((number, place)) for points in (call.accept, call.finish)]
        need(sum(at) == 1, f"the entry {place} of part {number} is {sum(at)} points of its call")
        return at[0] == 1

    def history(self, number, part):
        partition, shown = self.broker.partitions[number], []
        need(partition.followers == part.followers, "another number of followers")
        for place, event in enumerate(part.events):
            if kind_of(event) == "Shrink":
                self.leave(number, event)
            elif self.is_accepting(number, place, event):
                self.accept(number, event)
            else:
                need(kind_of(event) == "Look", f"the entry {place} of part {number} completes, and is no look")
            shown.append(copied(partition))
        need(part.log == b"".join(data for _, _, data in partition.batches), f"the log of part {number} is another")
        return shown

    def leave(self, number, event):
        """A follower leaves, which has to lag at a moment that the clock was told."""
        need(event.t > 0 and event.t in self.moments, f"a follower of part {number} leaves at a moment that the clock wasn't told")
        need(event.replica in self.broker.partitions[number].lagging(event.t), f"a follower of part {number} leaves that doesn't lag")
        self.broker.moment = event.t
        self.broker.leave(number, event.replica)

    def check_moment(self, event):
        """A follower's fetch came at a moment that the clock was told, and not before what its pass had seen in earlier calls."""
        need(event.t in [0, *self.moments], "a fetch at a moment that the clock wasn't told")
        seen = [self.moments[point.place] for (by, seq), call in self.calls.items() if by == event.by and seq < event.seq
                for point in call.accept + call.finish if point.part == CLOCK]
        need(event.t >= max(seen, default=0), "a fetch at a moment before one that its pass had seen")

    def accept(self, number, event):
        """Does again what an entry did, which has to be what it tells."""
        owner, partition = (event.by, event.seq), self.broker.partitions[number]
        request = self.requests[owner]
        if kind_of(event) == "Follow":
            self.check_moment(event)
            self.broker.moment = event.t
        named = [named for known, named in self.named(request) if known == number]
        need(len(named) == 1, f"an entry of part {number}, which its call doesn't name")
        bytes_before = partition.bytes
        became = self.does(self.broker, request, named[0])
        self.became[owner][number] = became
        need(kind_of(event) == self.entry_kind(request, became), f"an entry of part {number} is a {kind_of(event)}")
        if kind_of(event) == "Append":
            need((event.count, event.len) == (became.count, partition.bytes - bytes_before), "an append of another batch")
        if kind_of(event) == "Follow":
            need((event.replica, event.offset) == (request.fields["replica"], named[0][2]), "a fetch of another follower")

    def entry_kind(self, request, became):
        if became.code != 0:
            return "Look"
        if request.key == 0:
            return "Append"
        return "Follow" if request.fields["replica"] >= 0 else "Look"

    def clock(self):
        moment, moments = 0, []
        for place, event in enumerate(self.account.clock):
            if kind_of(event) == "Tick":
                need(event.t > moment, "a tick that doesn't rise")
                moment = event.t
            else:
                self.is_accepting(CLOCK, place, event)
            moments.append(moment)
        return moments

    @property
    def moment(self):
        return self.moments[-1] if self.moments else 0

    # ---- calls

    def show(self, points):
        """Lets the broker see the partitions as they were at these points, and no others."""
        self.broker.partitions = {point.part: self.shown[point.part][point.place] for point in points}

    def parts_of(self, owner, request):
        """What became of each named partition, and the numbers of those whose log was asked."""
        parts, asked = [], []
        for number, named in self.named(request):
            entered = self.became[owner].get(number)
            part = entered or self.does(broker.Broker(self.account.config.topics), request, named)
            # What is refused by the topics, or by the batch itself, leaves no entry.
            asks = number is not None and (request.key == 1 or part.code in (0, broker.TOO_FEW, *broker.FULL))
            need(asks == (entered is not None), f"partition {named[1]} of a topic {'left no entry' if asks else 'left an entry'}")
            parts.append(part)
            asked += [number] * asks
        return parts, asked

    def answer(self, owner, call):
        """Tells a call's reply from the partitions at its points, where they ask that it was answered."""
        request = self.requests[owner]
        parts, asked = self.parts_of(owner, request)
        how = kind_of(call.how)
        entries = call.accept[:len(asked)]
        need([point.part for point in entries] == asked, "entries of other partitions, or in another order")
        self.show(entries)
        if not self.broker.must_wait(request, parts):
            is_quiet = request.key == 0 and request.fields["acks"] == 0
            need(how == ("Quiet" if is_quiet else "AtOnce"), f"a call that needn't wait is {how}")
            need(call.accept == entries and call.finish == (), "a call that needn't wait has more points")
            if not is_quiet:
                self.broker.reply(owner[0], request, parts)
            return
        need([point.part for point in call.accept[len(asked):]] == [CLOCK], "a call that waits didn't look at the clock once")
        wait = request.fields["timeout"] if request.key == 0 else request.fields["wait"]
        deadline = self.moments[call.accept[-1].place] + max(0, wait)
        self.end_wait(owner, call, parts, deadline)

    def end_wait(self, owner, call, parts, deadline):
        request, how, finish = self.requests[owner], kind_of(call.how), call.finish
        if how == "Parked":
            need(finish == (), "a parked call with an end")
            self.broker.partitions = self.final()
            need(not self.broker.is_satisfied(request, parts), "a parked call is satisfied at the end")
            need(self.moment < deadline, "a parked call is overdue at the end")
            return
        need(how in ("Satisfied", "Expired"), f"a call that waits is {how}")
        if how == "Expired":
            need(finish != () and finish[0].part == CLOCK, "an expired call without a look at the clock")
            need(deadline <= self.moments[finish[0].place], "a call that expired too early")
            finish = finish[1:]
        needed = [part.number for part in parts if part.code == 0]
        need([look.part for look in finish] == needed, "a completion that looks at other partitions")
        self.show(finish)
        need(how == "Expired" or self.broker.is_satisfied(request, parts), "a satisfied call that isn't")
        self.broker.reply(owner[0], request, parts)

    def final(self):
        return [shown[-1] if shown else broker.Partition(part.followers) for shown, part in zip(self.shown, self.account.parts)]

    # ---- sessions

    def calls_in(self, number, transcript, data, places):
        """A transcript's calls are the frames at the front of its input, in order. Gives what stands behind them."""
        for seq, call in enumerate(transcript.calls, transcript.first):
            kind, body = wire.next_frame(data)
            need((kind, body) == ("whole", call.frame), f"the call {seq} of pass {number} isn't the next frame")
            data = data[4 + len(body):]
            for point in call.accept + call.finish:
                need(places.get(point.part, -1) < point.place, f"an entry of pass {number} stands before its earlier ones")
                places[point.part] = point.place
            self.broker.sessions[number].calls += 1
            self.answer((number, seq), call)
            need(kind_of(call.how) != "Parked" or call is transcript.calls[-1], "a call behind a parked one")
        return data

    def check_end(self, transcript, end):
        told = transcript.end and " ".join(str(word) for word in (transcript.end.kind, transcript.end.what) if word is not None)
        need(told == end, f"{transcript.number} ended as {told}, not as {end}")

    def session(self, number, data, is_shut):
        """A session's calls are the frames of its input, in order, and it ended as the rest of that asks."""
        need(len(self.account.passes[number]) == 1, f"session {number} has another number of transcripts")
        (transcript,) = self.account.passes[number]
        need((transcript.number, transcript.first) == (number, 0), f"the transcript of session {number} is another's")
        self.broker.sessions[number].is_named = True
        rest = self.calls_in(number, transcript, data, {})
        is_parked = transcript.calls != () and kind_of(transcript.calls[-1].how) == "Parked"
        end = None if is_parked else self.end_of(rest, is_shut)
        self.check_end(transcript, end)
        if end is not None:
            self.broker.finish(number, end)
        if is_parked:
            self.broker.waiting.append(broker.Waiting(number, None, None, None))

    def end_of(self, rest, is_shut):
        kind, what = wire.next_frame(rest)
        if kind == "too long":
            return f"too-long {what}"
        if kind == "not yet":
            return (f"truncated {len(rest)}" if rest else "closed") if is_shut else None
        try:
            wire.read_request(what)
        except wire.Refused as refused:
            return f"refused {refused}"
        raise Wrong("a request that nobody handled")

    def check_wins(self):
        won = collections.Counter(call.how.by for call in self.calls.values() if kind_of(call.how) in ("Satisfied", "Expired"))
        need(won == collections.Counter({winner: count for winner, count in enumerate(self.account.wins) if count}), "other wins")

    def told(self, inputs):
        """All that has to be printed, session by session. `inputs` has what each named session received, and whether its input
        ended."""
        need(all(transcripts == () for number, transcripts in enumerate(self.account.passes) if number not in inputs),
             "a transcript of a session that nobody named")
        need(len(self.account.passes) == max(inputs, default=-1) + 2, "another number of passes")
        self.check_wins()
        for number in sorted(inputs):
            self.session(number, *inputs[number])
        self.broker.partitions = self.final()
        self.broker.summary()
        return b"".join(self.broker.out)

    # ---- links

    def link(self, number, transcript, data, places):
        """The line of a link that a lane served to the end of its input."""
        session = self.broker.sessions[number] = broker.Session()
        end = self.end_of(self.calls_in(number, transcript, data, places), True)
        self.check_end(transcript, end)
        return f"link {transcript.number} calls {session.calls} replies {session.replies} {end}\n".encode()

    def told_links(self, inputs):
        """All that has to be printed of links, by the numbers of which each brought one of the inputs, whole, and was served to its end."""
        self.check_wins()
        lines = {}
        for number, transcripts in enumerate(self.account.passes):
            first, places = 0, {}
            for transcript in transcripts:
                need(transcript.first == first, f"the calls of link {transcript.number} are counted from elsewhere")
                need(transcript.number not in lines and transcript.number < len(inputs), f"link {transcript.number} has a transcript too many")
                lines[transcript.number] = self.link(number, transcript, inputs[transcript.number], places)
                first += len(transcript.calls)
        need(len(lines) == len(inputs), "a link has no transcript")
        self.broker.partitions, self.broker.out = self.final(), []
        self.broker.summary()
        parts = [line for line in self.broker.out if line.startswith(b"part ")]
        return b"".join([*(lines[number] for number in sorted(lines)), *parts, b"done\n"])

"""Runs a batch, from the list to the answers."""
from __future__ import annotations

import itertools
import os
import sys
from contextlib import nullcontext
from typing import TYPE_CHECKING, ContextManager, Iterator, List, Mapping, Optional, Sequence

from .._ignored import Phrases
from .._text import shown
from .answered import Piece, answers_to, pieces_of
from .answers import Answers
from .columns import added_names, added_to, column_in, optional_column_in
from .files import Basis, lots_in, phrases_in, plat_in
from .folder import Folder
from .interrupts import Interrupts
from .options import Options
from .plats import FolderPlats, HeadedPlats, Key, OnePlat, Plats
from .progress import Progress, bar_of
from .records import Records
from .resuming import Earlier
from .shape import Shape
from .sinks import CsvSink, Sink, sink_for
from .source import Source, source_of
from .stopped import Status, Stopped

if TYPE_CHECKING:
    from .workers import Workers

#: The number of townships without a file that are named at the end.
_TOWNSHIPS_NAMED = 10


def run_batch(options: Options) -> Status:
    """Read the plats and the list, and write the answers. Raise `Stopped` if that cannot be completed.

    If it is interrupted, the answers so far are written.
    """
    plats = _Plats(options)
    phrases = None if options.words is None else phrases_in(options.words)
    _check_output(options.output, [*filter(None, [options.list, options.words]), *plats.files])
    with source_of(options) as source:
        answers = _answers_by(plats.plats_for(source, options), source, options, phrases)
        try:
            with Interrupts() as interrupts:
                _answer(source, answers, options, interrupts)
            interrupted = False
        except KeyboardInterrupt:
            interrupted = True
    _say(plats.refused + _remarks(answers, options, interrupted))
    if interrupted:
        return Status.INTERRUPTED
    return Status.REFUSED if answers.counts.refused or plats.refused else Status.ACCEPTED


def _answers_by(plats: Plats, source: Source, options: Options, phrases: Optional[Phrases]) -> Answers:
    """Return what answers the records of a list. Its readings leave the phrases out."""
    ignore = (phrases or Phrases()) if options.suggest else None
    if isinstance(plats, HeadedPlats):
        # Few batches need what answers land in several townships.
        from .headed_answers import HeadedAnswers

        return HeadedAnswers(plats, source.shape.column, options.account, ignore)
    return Answers(plats, source.shape.column, options.account, ignore)


class _Plats:
    """What the command line names: field notes, a lot table, or a folder of both."""

    def __init__(self, options: Options) -> None:
        self._names = list(filter(None, [options.notes, options.lots]))
        self._one: Optional[Basis] = None
        if options.notes is not None:
            self._one = plat_in(options.notes)
        elif options.lots is not None:
            self._one = lots_in(options.lots)
        others = list(filter(None, [options.list, options.output, options.words]))
        self._folder = Folder(options.plats, others) if options.plats is not None else None

    @property
    def files(self) -> List[str]:
        """The files of field notes and lot tables."""
        return self._folder.files if self._folder else self._names

    @property
    def refused(self) -> List[str]:
        """The explanations of the files in the folder that are refused."""
        return self._folder.refused if self._folder else []

    def plats_for(self, source: Source, options: Options) -> Plats:
        """Return the plats for the records of a list."""
        if self._one is not None:
            return OnePlat(self._one)
        if self._folder is None:
            raise ValueError("a batch takes field notes, a lot table, or a folder of them")
        meridian = _meridian_in(source, options)
        date = None if options.date is None else column_in(source.heading, options.date, "--date", source.place)
        if options.headings:
            return HeadedPlats(self._folder, meridian, date)
        township = column_in(source.heading, options.township, "--township", source.place)
        return FolderPlats(self._folder, Key(township, meridian, date))


def _meridian_in(source: Source, options: Options) -> Optional[int]:
    """Return the index of the meridian's column. Only if the command line names it must there be one."""
    if options.meridian is None:
        return optional_column_in(source.heading, "meridian", "--meridian", source.place)
    return column_in(source.heading, options.meridian, "--meridian", source.place)


def _check_output(output: Optional[str], inputs: Sequence[str]) -> None:
    """Stop if the output would overwrite an input."""
    if output is None or not os.path.exists(output):
        return
    if any(os.path.exists(name) and os.path.samefile(name, output) for name in inputs):
        raise Stopped(f"township: {shown(output)}: the output must not be one of the inputs")


def _answer(source: Source, answers: Answers, options: Options, interrupts: Interrupts) -> None:
    """Write the list with its answers."""
    added = added_names(answers.plats.names_files, options.headings, options.suggest)
    heading = [*source.heading, *added_to(source.heading, options.prefix, source.place, added)]
    begun = options.resume and _skip_earlier(source, heading, answers, options, interrupts)
    # They are forked before the output is opened, so that they have no part of it to write.
    with _workers(options.jobs, answers, source.shape) as workers:
        sink = sink_for(options.output, source.shape.separator, source.mark, append=begun)
        progress = Progress(bar_of(source.size), source.position if source.size else lambda: answers.counts.all)
        try:
            if not begun:
                sink.write(heading)
            for _ in _written(source, answers, sink, workers, interrupts):
                progress.show()
        finally:
            progress.close()
            sink.close()


def _skip_earlier(
    source: Source, heading: List[str], answers: Answers, options: Options, interrupts: Interrupts
) -> bool:
    """Skip the records that an earlier output contains. Return whether it has its heading."""
    if options.output is None:
        return False
    earlier = Earlier(options.output, heading, source.shape.separator)
    earlier.skip(interrupts.between(source.records), answers, len(source.heading))
    if isinstance(source.records, Records):
        source.records.give_back()
    return earlier.begun


def _written(
    source: Source, answers: Answers, sink: Sink, workers: Optional[Workers], interrupts: Interrupts
) -> Iterator[None]:
    """Write the records with their answers, and yield after each step."""
    if not isinstance(sink, CsvSink):
        for record in interrupts.between(source.records):
            sink.write(record.fields + answers.added_to(record))
            yield
        return
    pieces: Iterator[Piece] = source.chunks or pieces_of(source.records, source.shape)

    def take() -> Optional[Piece]:
        return interrupts.next_of(pieces)

    if workers is None:
        texts = answers_to(take, source.chunks, answers, source.shape)
    else:
        texts = workers.answers_to(take, source.chunks)
    for text in texts:
        sink.write_text(text)
        yield


def _workers(jobs: int, answers: Answers, shape: Shape) -> ContextManager[Optional[Workers]]:
    """Return the processes that answer records in place of this one, if there are any."""
    if jobs == 1:
        return nullcontext()
    # Importing what starts processes takes time.
    from .workers import Workers

    return Workers(jobs, answers, shape)


def _remarks(answers: Answers, options: Options, interrupted: bool) -> List[str]:
    """Return what there is to say at the end."""
    counts = answers.counts
    remarks = list(_missing(counts.missing))
    if counts.undecoded and options.encoding == "utf-8":
        verb = "is" if counts.undecoded == 1 else "are"
        remarks.append(
            f"township: {counts.undecoded} of the descriptions {verb} not UTF-8; if the list is in "
            "Windows-1252, add --encoding windows-1252"
        )
    if interrupted:
        remarks.append(f"township: interrupted after {counts.all} records")
    elif sys.stderr.isatty():
        remarks.append(f"township: {counts.all} records: {counts.accepted} accepted, {counts.refused} not")
    return remarks


def _missing(counts: Mapping[str, int]) -> Iterator[str]:
    """Yield what to say about the townships for which there is no file: the first ones by name, and how many more."""
    for sentence, number in itertools.islice(counts.items(), _TOWNSHIPS_NAMED):
        yield f"township: {sentence}: {_records(number)}"
    rest = list(counts.values())[_TOWNSHIPS_NAMED:]
    if rest:
        yield f"township: .. and so for {len(rest):,} more: {_records(sum(rest))}"


def _records(number: int) -> str:
    return "1 record" if number == 1 else f"{number:,} records"


def _say(remarks: List[str]) -> None:
    for remark in remarks:
        print(remark, file=sys.stderr)

#!/usr/bin/env python3
"""Respells the names of definitions, lemmas and record fields of this repository: words in snake case, statements in camel case.

usage: tools/respell.py, at the top of the repository, once, right after the toolchain's own porting script.

It goes by text: in specs/ and proofs/ it renames definitions and lemmas wherever they stand at the head of a path or in a path of modules,
and fields of records behind a value; in src/ the same, where only clauses and `ghost use` lines have such names.
"""
import glob
import re

# old=new, of definitions and lemmas
DEFINITIONS = """
After-words=AfterWords Cells-from-at=CellsFromAt Cells-from-length=CellsFromLength Cells-keep-bytes=CellsKeepBytes Cells-keep-length=CellsKeepLength
Chips-alike-answer-alike=ChipsAlikeAnswerAlike Fill-cells-inside=FillCellsInside Fill-cells-outside=FillCellsOutside Frame-carries-out=FrameCarriesOut
Heard-is-run=HeardIsRun Idle-rests=IdleRests Listing-accounts=ListingAccounts Poll-ready-iff=PollReadyIff Poll-rests=PollRests
Put-keeps-fits=PutKeepsFits Read-answers-cells=ReadAnswersCells Read-opens-cell=ReadOpensCell Read-rests=ReadRests Run-appends=RunAppends
Run-keeps-blank=RunKeepsBlank Run-keeps-fits=RunKeepsFits Set-cell-other=SetCellOther Set-cell-same=SetCellSame Table-agrees=TableAgrees
Views-do-not-matter=ViewsDoNotMatter Words-are-last-accepted=WordsAreLastAccepted Words-heard-more=WordsHeardMore above-lt=above_lt added-all=added_all
addressIn=address_in adds-all=adds_all adds-bad=adds_bad adds-full=adds_full adds-last=adds_last admitted-finds=admitted_finds after-add=after_add
after-words=after_words afterBits=after_bits agreesAt=agrees_at agreesAtEight=agrees_at_eight all-at=all_at all-bits=all_bits all-bytes=all_bytes
all-length=all_length allCells=all_cells answersIn=answers_in any-bound=any_bound any-old=any_old append-lt=append_lt appliedAll=applied_all
asDone=as_done asWord=as_word at-eight=at_eight at-end=at_end at-record=at_record at-sixteen=at_sixteen badForm=bad_form bareChip=bare_chip
bareOf=bare_of bareYield=bare_yield begun-keeps=begun_keeps bind-keeps=bind_keeps bind-same=bind_same bit-appended=bit_appended bit-before=bit_before
bit-on=bit_on bit-small=bit_small bit-taken=bit_taken bitNext=bit_next bits-before=bits_before bits-counted=bits_counted bits-end=bits_end
bitsBy=bits_by bitsIn=bits_in bitsTaken=bits_taken blankPins=blank_pins blankSetup=blank_setup book-fed=book_fed bookAfter=book_after
byte-below=byte_below byte-set=byte_set bytes-all=bytes_all bytes-are=bytes_are bytes-more=bytes_more bytes-set=bytes_set bytesAfter=bytes_after
bytesIn=bytes_in bytesRan=bytes_ran call-keeps=call_keeps call-later=call_later carriedOut=carried_out carries-out=carries_out cell-bit=cell_bit
cell-heard=cell_heard cell-rest=cell_rest cellBy=cell_by cellEnd=cell_end cellIn=cell_in cellNext=cell_next cellValue=cell_value
cells-after=cells_after cells-from-at=cells_from-at cells-from-length=cells_from-length cells-keep-bytes=cells_keep_bytes
cells-keep-length=cells_keep_length cells-within=cells_within cellsBy=cells_by cellsFrom=cells_from cellsOn=cells_on change-carried=change_carried
changeable-finds=changeable_finds changed-field=changed_field changed-is=changed_is changed-keeps=changed_keeps changedBook=changed_book
changedBy=changed_by changedBytes=changed_bytes check-early=check_early checkOf=check_of checkedFor=checked_for
chips-alike-answer-alike=chips_alike_answer_alike choose-busy=choose_busy choose-ready=choose_ready clockedTo=clocked_to cond-ok=cond_ok
contentsOf=contents_of countAnswer=count_answer countIn=count_in countRead=count_read cycle-clock=cycle_clock cycle-clock-late=cycle_clock_late
cycle-fall=cycle_fall cycle-fall-late=cycle_fall_late dataBit=data_bit doOf=do_of editionOf=edition_of eight-within=eight_within endFrom=end_from
endOn=end_on endText=end_text endingOf=ending_of entriesFrom=entries_from entriesOf=entries_of events-bare=events_bare events-more=events_more
eventsFrom=events_from eventsOf=events_of eventsOn=events_on every-try=every_try fetched-keeps=fetched_keeps few-cells=few_cells
few-not-whole=few_not_whole few-short=few_short field-code=field_code field-joined=field_joined fieldBits=field_bits fieldText=field_text
file-comes=file_comes file-refused=file_refused fileText=file_text fill-all=fill_all fill-cells-inside=fill_cells_inside
fill-cells-outside=fill_cells_outside fill-keeps=fill_keeps fillCells=fill_cells filledBy=filled_by filledWith=filled_with findPart=find_part
first-bits=first_bits firstBook=first_book firstCells=first_cells fit-more=fit_more fit-stops=fit_stops frame-bare=frame_bare
frame-carries-out=frame_carries_out frame-keeps=frame_keeps frame-sent=frame_sent frameAnswer=frame_answer frameBuffer=frame_buffer frameOn=frame_on
freshMachine=fresh_machine greet-keeps=greet_keeps greetAim=greet_aim handedBy=handed_by hasClock=has_clock hasData=has_data hasRoom=has_room
headerText=header_text hear-all=hear_all hear-fits=hear_fits hear-more=hear_more hear-none=hear_none heard-below=heard_below heard-is-run=heard_is_run
high-all=high_all high-here=high_here highAt=high_at idled-still=idled_still ifCarriedOut=if_carried_out in-bits=in_bits inClock=in_clock
inEdition=in_edition inFall=in_fall inPhase=in_phase inPlaces=in_places inWidth=in_width instruction-fits=instruction_fits instructionAt=instruction_at
instructionFrom=instruction_from is-kind=is_kind isAccepted=is_accepted isBusyRise=is_busy_rise isChange=is_change isClock=is_clock
isClockEdition=is_clock_edition isDone=is_done isGreeted=is_greeted isOffered=is_offered isOpen=is_open isProgramming=is_programming isQuiet=is_quiet
isRead=is_read isReady=is_ready isUnfinished=is_unfinished joined-longer=joined_longer joined-lt=joined_lt joined-twice=joined_twice joinedBy=joined_by
keptBook=kept_book kind-code=kind_code kind-first=kind_first kind-stays=kind_stays kind-with=kind_with kindIn=kind_in kindText=kind_text
last-cells=last_cells last-is=last_is last-words=last_words lastText=last_text lateWatched=late_watched least-length=least_length leftOn=left_on
length-bytes=length_bytes length-frame=length_frame level-most=level_most levelOf=level_of levels-are=levels_are levelsAfter=levels_after
levelsRan=levels_ran lineText=line_text linesText=lines_text list-more=list_more listingText=listing_text livePins=live_pins low-before=low_before
machineWith=machine_with most-bits=most_bits mostBy=most_by mostTries=most_tries newIn=new_in nextBy=next_by nextIn=next_in no-bit=no_bit
no-high=no_high noCycles=no_cycles noStart=no_start not-ok=not_ok notBlank=not_blank odd-bit=odd_bit ofChip=of_chip ofPart=of_part ofTrace=of_trace
one-record=one_record onesOf=ones_of op-joined=op_joined op-lt=op_lt open-chip=open_chip openedBy=opened_by orgAt=org_at outcomeOf=outcome_of
outs-all=outs_all partNumbered=part_numbered passed-among=passed_among passed-bad=passed_bad passed-last=passed_last peAt=pe_at peers-after=peers_after
pinsOf=pins_of plainFrame=plain_frame poll-all=poll_all poll-ready-iff=poll_ready_iff poll-rests=poll_rests polled-keeps=polled_keeps
polled-ways=polled_ways powerUp=power_up poweredBy=powered_by put-keeps-blank=put_keeps_blank put-keeps-fits=put_keeps_fits put-later=put_later
putOn=put_on quiet-answer=quiet_answer range-follow=range_follow read-answers-cells=read_answers_cells read-comes=read_comes read-heard=read_heard
read-on-fits=read_on-fits read-opens-cell=read_opens_cell read-refused=read_refused read-rests=read_rests read-sent=read_sent readOpening=read_opening
readsFrom=reads_from readyIn=ready_in record-stands=record_stands recordOf=record_of recordRead=record_read refused-input=refused_input
refusedWith=refused_with restState=rest_state room-left=room_left roomOf=room_of run-all=run_all run-appends=run_appends
run-keeps-blank=run_keeps_blank run-keeps-fits=run_keeps_fits run-words=run_words runAnswer=run_answer runOn=run_on same-last=same_last
same-words=same_words sampleOf=sample_of sampled-twice=sampled_twice samples-bad=samples_bad samples-last=samples_last samples-more=samples_more
samples-within=samples_within samplesChecked=samples_checked samplesIn=samples_in samplesOf=samples_of samplesUpTo=samples_up_to
selectedState=selected_state send-all=send_all send-more=send_more sentFrame=sent_frame set-cell-other=set_cell_other set-cell-same=set_cell_same
setCell=set_cell settingsAnswer=settings_answer settingsFrom=settings_from settingsOf=settings_of settingsRead=settings_read setupOf=setup_of
shapeOn=shape_on shifted-joined=shifted_joined shownBusy=shown_busy showsBusy=shows_busy shut-chip=shut_chip sixteen-within=sixteen_within
someWords=some_words sound-after=sound_after sound-new=sound_new span-above=span_above span-first=span_first start-after=start_after_lem
start-bit=start_bit startAfter=start_after stays-low=stays_low suits-first=suits_first table-agrees=table_agrees textAnswer=text_answer
told-blank=told_blank told-keeps=told_keeps tooLong=too_long tooShort=too_short top-joined=top_joined trace-within=trace_within
traceAnswer=trace_answer traceChecked=trace_checked traceOf=trace_of traceOuts=trace_outs tracePins=trace_pins try-found=try_found try-more=try_more
try-none=try_none turnTo=turn_to turned-keeps=turned_keeps unlessRefused=unless_refused value-code=value_code value-fits=value_fits
value-last=value_last value-lt=value_lt valueBy=value_by valueIn=value_in verdict-is=verdict_is verdictNumber=verdict_number verdictOf=verdict_of
views-do-not-matter=views_do_not_matter wantedBy=wanted_by wasProgramming=was_programming watch-all=watch_all watch-idle=watch_idle watch-on=watch_on
wenAt=wen_at whole-ends=whole_ends wholeLength=whole_length widthOn=width_on words-are-cells=words_are_cells
words-are-last-accepted=words_are_last_accepted words-for=words_for_lem words-found=words_found words-heard-more=words_heard-more words-in=words_in_lem
words-length=words_length words-most=words_most words-read=words_read wordsFor=words_for wordsHeard=words_heard wordsOn=words_on
wordsWanted=words_wanted writeOf17=write_of_17 written-not=written_not written-well=written_well writtenOn=written_on wrong-count=wrong_count
zeroBit=zero_bit zero_bit=bit_at_zero zeros-add=zeros_add
"""

# old=new, of fields of records
FIELDS = """
answers-fit=answers_fit cycle-clock=cycle_clock cycle-clock-late=cycle_clock_late cycle-fall=cycle_fall cycle-fall-late=cycle_fall_late
data-17-clock=data_17_clock data-17-fall=data_17_fall field-130=field_130 in-width=in_width last-cells=last_cells last-words=last_words
left-4096-before=left_4096_before left-4096-ready=left_4096_ready left-4096-tries=left_4096_tries left-4097=left_4097 same-room=same_room
same-slice=same_slice wen-frame=wen_frame words-fit=words_fit write-46-clocks=write_46_clocks write-46-samples=write_46_samples
write-86-clocks=write_86_clocks write-86-samples=write_86_samples write-begins-clock=write_begins_clock write-begins-fall=write_begins_fall
"""

WORD = re.compile(r"[A-Za-z_][\w'-]*(?:\.[A-Za-z_0-9][\w'-]*)*")
ALIAS = re.compile(r"^(?:ghost )?use [^{}]*?(?:\.(\w+)|\bas (\w+));?$", re.M)
GENERATED = re.compile(r"\.(?:Goals|Given)\b|specs\.declared\.|specs\.contracts\.|use Rattle\.std\b|ghost use Rattle\.std\b")


def table(text):
    return dict(pair.split("=") for pair in text.split())


def respell(text, definitions, fields):
    aliases = {a or b for a, b in ALIAS.findall(text)} - {"goal"}

    def word(match):
        first, *rest = match.group(0).split(".")
        if first == "Rattle" or first in aliases:
            return ".".join([first] + [definitions.get(part, part) for part in rest])
        if first == "goal":
            return match.group(0)
        after_dot = match.start() > 0 and match.string[match.start() - 1] == "."
        head = first if after_dot else definitions.get(first, fields.get(first, first))
        if after_dot:
            head = fields.get(first, first)
        return ".".join([head] + [fields.get(part, part) for part in rest])

    lines = [line if GENERATED.search(line) or ": goal." in line else WORD.sub(word, line) for line in text.split("\n")]
    return "\n".join(lines)


def main():
    definitions, fields = table(DEFINITIONS), table(FIELDS)
    files = [f for part in ("specs/**/*.antt", "proofs/**/*.antt", "src/**/*.rt") for f in glob.glob("crates/*/" + part, recursive=True)]
    changed = 0
    for path in sorted(files):
        with open(path, encoding="utf-8") as f:
            old = f.read()
        new = respell(old, definitions, fields)
        if new != old:
            changed += 1
            with open(path, "w", encoding="utf-8") as f:
                f.write(new)
    print(f"respell: {changed} of {len(files)} files")


main()

"""What constants.py compares: constants of the headers, without GRIMHOLDI_,
and where the specs have their numbers: in files that a reader must believe
(docs/READING.md), and in one that is internal, hub/specs/Checks.
"""

from typing import NamedTuple


class Place(NamedTuple):
    crate: str
    module: str
    definition: str

    def file(self):
        return "crates/%s/specs/%s.antt" % (self.crate, self.module)

    def __str__(self):
        return "%s: %s" % (self.file(), self.definition)


# Crate, file and definition.  A definition that is renamed or moves is one
# line here.
VERSION = Place("grimholdi", "Version", "version")
NEW_FITS = Place("hub", "Hub", "new_fits")
NEW_HUB = Place("hub", "Hub", "new_hub")
HUB_REFUSALS = Place("hub", "Checks", "refusal_number")
CHECKED = Place("hub", "Checks", "checked_as")
COUNTS_OUTSIDE = Place("hub", "New", "CountsOutside")
NEW_HUBS = Place("grimholdi", "New", "NewHubs")
ENTRY_REFUSED = Place("grimholdi", "Outcome", "refused")
DONE = Place("hub", "Call", "done")
STALL = Place("hub", "Call", "stall")
NOTHING = Place("hub", "Call", "gives_nothing")
DATA = Place("hub", "Call", "gives")
DESCRIPTOR = Place("hub", "Requests", "descriptor")
REFUSALS = Place("runs", "Refusals", "number_of")
OVER_ADDRESS = Place("runs", "Refusals", "OverAddress")
OVER_ENDPOINT = Place("runs", "Refusals", "OverEndpoint")
OVER_PAYLOAD = Place("runs", "Refusals", "OverPayload")
UNKNOWN_LANE = Place("runs", "Refusals", "UnknownLane")
WRONG_SETUP = Place("runs", "Refusals", "WrongSetup")
OUTSIDE = Place("runs", "Refusals", "Outside")
SHORT = Place("runs", "Refusals", "Short")
SERVES = Place("runs", "Refusals", "Serves")
IS_REFUSAL = Place("translator", "Answers", "is_refusal")
CHOICES = Place("translator", "Answers", "choice_number")
STARTS = Place("translator", "Answers", "start_number")
RESULTS = Place("translator", "Answers", "result_number")
RESULT_PIDS = Place("translator", "Answers", "result_pid")
LANES = Place("translator", "Answers", "lane_number")
PIDS = Place("translator", "Answers", "pid_number")
COMPLETES = Place("translator", "Answers", "complete_number")
LAUNCHES = Place("translator", "Answers", "launch_number")
DELIVERS = Place("translator", "Answers", "deliver_number")
TYPES = Place("numbers", "Written", "type_number")
DIRECTIONS = Place("numbers", "Written", "direction_number")
RESULTS_WRITTEN = Place("numbers", "Written", "result_written")
EVENTS = Place("numbers", "Written", "event_number")
NUMBERS_FIT = Place("buffer", "Lengths", "numbers_fit")
START_LENGTH = Place("buffer", "Lengths", "start_length")
RESULT_LENGTH = Place("buffer", "Lengths", "result_length")
STEP_DONE = Place("port", "Reaction", "done_with")
STEP_REFUSED = Place("port", "Reaction", "reacted")
TICK = Place("port", "Tick", "tick")
STATUS_LOW = Place("port", "Status", "status_low")
STATUS_HIGH = Place("port", "Status", "status_high")
CHANGE_LOW = Place("port", "Status", "change_low")
SETTABLES = Place("request", "Fields", "settable_number")
CLEARABLES = Place("request", "Fields", "clearable_number")
CHANGES = Place("request", "Fields", "change_number")
DIRECTION_BITS = Place("request", "Fields", "direction_bit")
PIPE_VALUE = Place("request", "Fields", "pipe_value")
PIPE_IN_RANGE = Place("request", "Fields", "PipeInRange")
ASKS_FOR = Place("request", "Fields", "AsksFor")
STATES = Place("port", "Numbers", "state_number")
SPEEDS = Place("port", "Numbers", "speed_number")
AREA_LENGTH = Place("area", "Written", "area_length")
LAYOUTS = Place("call_bytes", "Table", "layout_of")
WRITABLE = Place("recording", "Written", "Writable")
PADDED = Place("recording", "Written", "padded")
COUNT_RIGHT = Place("recording", "Refusals", "CountRight")
RIGHT = Place("recording", "Refusals", "Right")
WRITER = Place("grimholdi_block", "Writer", "WriterExact")
UNDER_WAY = Place("grimholdi_block", "Writer", "UnderWay")
ANSWERS_LENGTH = Place("replay", "Answers", "answers_length")
BLOCK_REFUSALS = Place("grimholdi_replay", "Entry", "fault_number")
BLOCK_REFUSED = Place("grimholdi_replay", "Entry", "refusal_number")
REPLAYED = Place("grimholdi_replay", "Entry", "replayed_as")
REPLAY = Place("grimholdi_replay", "Entry", "block_entry")
IS_NUMBER = Place("why", "Said", "is_number")
FAULTS = Place("why", "Said", "place")
REASONS = Place("why", "Bytes", "bytes_of")
NO_CHANGES = Place("why", "Bytes", "plain_bytes")


# What a constant is to a number of the specs, if not the same.

class To(NamedTuple):
    constant: str
    value: object  # of the number


def below(constant):
    """The number is the first that is too large."""
    return To(constant, lambda number: number - 1)


def above(constant):
    """The number is the last that is too small."""
    return To(constant, lambda number: number + 1)


def shift(constant):
    """The number is 2 to the constant."""
    return To(constant, lambda number: number.bit_length() - 1
              if number > 0 and number & (number - 1) == 0 else None)


def unshifted(constant):
    """What stands before the number is not multiplied."""
    return To(constant, lambda number: 0)


def high_byte(constant):
    return To(constant, lambda number: 256 * number)


# Ways to find numbers.  In a text # is a number, ? a name, .. anything.

class Shape(NamedTuple):
    """A text that the definition has once.  `constants` has for each # a
    constant, a To, or a number that has no constant; it is empty for a text
    without #.  A text that begins with = is all that the definition says."""
    place: Place
    text: str
    constants: list


class Said(NamedTuple):
    """What a definition says in one case, and the constants as above."""
    text: str
    constants: list


class Cases(NamedTuple):
    """A definition by cases.  A case is named by its variant, and one inside
    Err or Ok by both.  A row is a Said, or a constant or number for the # of
    `text`, or = and a text without #.  `before` are the arguments before the
    one that tells the cases."""
    place: Place
    rows: dict
    text: str = "#"
    before: str = ""


class Bits(NamedTuple):
    """A list of bits, the lowest first."""
    place: Place
    lowest: int
    rows: dict


class Count(NamedTuple):
    """How long a list is."""
    place: Place
    constant: str


SET_PORT = "TYPE_SET_PORT"
CLEAR_TT = [SET_PORT, "REQUEST_CLEAR_TT_BUFFER"]
CLEAR_HUB = ["TYPE_SET_HUB", "REQUEST_CLEAR_FEATURE"]
COMPARED = [
    Shape(VERSION, "= #", ["VERSION_NUMBER"]),

    # Limits.
    Shape(NEW_FITS, "(leb # n && leb n #) && (leb # b && leb b #)",
          ["PORTS_MIN", "PORTS_MAX", "BUFFERS_MIN", "BUFFERS_MAX"]),
    Shape(COUNTS_OUTSIDE, "= (n < #) ⊎ (# < n) ⊎ (b < #) ⊎ (# < b)",
          ["PORTS_MIN", "PORTS_MAX", "BUFFERS_MIN", "BUFFERS_MAX"]),
    Shape(AREA_LENGTH, "(leb # n && leb n #) && (leb # b && leb b #)",
          ["PORTS_MIN", "PORTS_MAX", "BUFFERS_MIN", "BUFFERS_MAX"]),
    Shape(NO_CHANGES, "changes = replicate # 0", ["PORTS_MAX"]),
    Cases(LANES, {"Zero": 0, "One": "LANE_MAX"}),
    Shape(UNKNOWN_LANE, "= # < z", ["LANE_MAX"]),
    Shape(OVER_ADDRESS, "= # < a", ["ADDRESS_MAX"]),
    Shape(OVER_ENDPOINT, "= # < e", ["ENDPOINT_MAX"]),
    Shape(NUMBERS_FIT, "ltb s.address.0 # && ltb s.endpoint #",
          [below("ADDRESS_MAX"), below("ENDPOINT_MAX")]),
    Shape(PIPE_IN_RANGE, "= (k.address.0 < #) × (k.endpoint < #)",
          [below("ADDRESS_MAX"), below("ENDPOINT_MAX")]),
    Shape(OVER_PAYLOAD, "= # < n", ["PAYLOAD_MAX"]),
    Cases(START_LENGTH, {"Out": Said("leb n #", ["PAYLOAD_MAX"]),
                         "In": Said("eqb n #", [0]),
                         "Setup": Said("eqb n #", ["SETUP_LENGTH"])}),
    Shape(RESULT_LENGTH, "leb n #", ["PAYLOAD_MAX"]),
    Shape(WRONG_SETUP, "¬ (n ≡ #)", ["SETUP_LENGTH"]),
    Shape(OUTSIDE, "¬ (length s ≡ #)", ["SETUP_LENGTH"]),
    Cases(SHORT, {"Control": "REPLY_LENGTH", "Poll": "REPLY_LENGTH",
                  "Start": "= ⊥", "Complete": "REPLY_LENGTH",
                  "Launch": "REPLY_LENGTH", "Deliver": "= ⊥", "Event": "= ⊥",
                  "Tick": "= ⊥", "BusReset": "= ⊥"}, "room < #"),
    Shape(TICK, "(Resetting s t) = cond (ltb t #)", [above("RESET_TICKS")]),
    Shape(TICK, "(Resuming s t) = cond (ltb t #)", [above("RESUME_TICKS")]),

    # Answers.
    Shape(DONE, "= plain h #", ["ANSWER_DONE"]),
    Shape(STALL, "= refuse # h", ["ANSWER_STALL"]),
    Shape(NOTHING, "= refuse # h", ["ANSWER_NAK"]),
    Shape(DATA, "answer = pid_answer # 0 l", ["ANSWER_DATA"]),
    Cases(REFUSALS, {"outside": "ANSWER_OUTSIDE", "short": "ANSWER_NO_SPACE",
                     "silent": "ANSWER_SILENT",
                     "misplaced": "ANSWER_NOT_NOW", "stall": "ANSWER_STALL",
                     "nak": "ANSWER_NAK", "nyet": "ANSWER_NYET"}),
    Shape(SERVES, "= (n ≡ #) ⊎ (n ≡ #) ⊎ (n ≡ #)",
          ["ANSWER_DONE", "ANSWER_DATA", "ANSWER_HANDSHAKE"]),
    Shape(IS_REFUSAL, "= leb # n && leb n #",
          ["ANSWER_STALL", "ANSWER_NOT_NOW"]),
    Shape(IS_NUMBER, "= leb # n && leb n #",
          ["ANSWER_SILENT", "ANSWER_NOT_NOW"]),
    Cases(CHOICES, {"NoRoom": "ANSWER_NAK", "LimitReached": "ANSWER_NAK",
                    "Held": "ANSWER_DONE", "Reused": "ANSWER_DONE",
                    "Took": "ANSWER_DONE"}),
    Cases(STARTS, {"Err": "ANSWER_OUTSIDE", "Ok": "= choice_number c"}),
    Shape(RESULTS, "= cond (is_data r) # #",
          ["ANSWER_DATA", "ANSWER_HANDSHAKE"]),
    Cases(COMPLETES, {"Err NoMatch": "ANSWER_STALL",
                      "Err NotYet": "ANSWER_NYET",
                      "Ok": "= result_number r"}),
    Cases(LAUNCHES, {"Err NothingPending": "ANSWER_NAK",
                     "Err Occupied": "ANSWER_NOT_NOW", "Ok": "ANSWER_DATA"}),
    Cases(DELIVERS, {"Err Outside": "ANSWER_OUTSIDE",
                     "Err NotInThisState": "ANSWER_NOT_NOW",
                     "Ok": "ANSWER_DONE"}),
    Shape(STEP_DONE, "= record { port = p; number = # }", ["ANSWER_DONE"]),
    Shape(STEP_REFUSED, "refused = record { port = p; number = # }",
          ["ANSWER_NOT_NOW"]),
    Cases(HUB_REFUSALS, {"Outside": "ANSWER_OUTSIDE",
                         "NoSpace": "ANSWER_NO_SPACE",
                         "Unconfigured": "ANSWER_SILENT",
                         "NotInThisState": "ANSWER_NOT_NOW"}),
    Cases(CHECKED, {"Ok": "ANSWER_DONE", "Err": "= refusal_number r"}),
    Shape(NEW_HUB, "= cond (new_fits n b g c r) (Ok (hub_of n b g c r)) "
          "(Err Outside)", []),
    Shape(NEW_HUBS, "((f a n b g c r).answer.number ≡ #)",
          ["ANSWER_OUTSIDE"]),
    Shape(NEW_HUBS, "answer = ? #;", ["ANSWER_DONE"]),
    Shape(ENTRY_REFUSED, "answer = ? #;", ["ANSWER_OUTSIDE"]),

    # Numbers that calls take and give.
    Cases(PIDS, {"Out": "PID_OUT", "In": "PID_IN", "Setup": "PID_SETUP"}),
    Cases(RESULT_PIDS, {"Failure": "RESULT_STALL", "Ack": "RESULT_ACK",
                        "Nak": "RESULT_NAK", "Stall": "RESULT_STALL",
                        "Data0": "RESULT_DATA0", "Data1": "RESULT_DATA1"}),
    Cases(RESULTS_WRITTEN, {"Failure": "RESULT_FAILURE",
                            "Ack": "= result_pid Ack",
                            "Nak": "= result_pid Nak",
                            "Stall": "= result_pid Stall",
                            "Data0": "= result_pid Data0",
                            "Data1": "= result_pid Data1"}),
    Cases(TYPES, {"Control": "TRANSFER_CONTROL", "Bulk": "TRANSFER_BULK"}),
    Cases(DIRECTIONS, {"Out": "DIRECTION_OUT", "In": "DIRECTION_IN"}),
    Cases(EVENTS, {"AttachLow": "EVENT_ATTACH_LOW",
                   "AttachFull": "EVENT_ATTACH_FULL",
                   "Detach": "EVENT_DETACH", "Chirp": "EVENT_CHIRP",
                   "Wake": "EVENT_WAKE", "PortError": "EVENT_PORT_ERROR",
                   "OverCurrentOn": "EVENT_OVER_CURRENT_ON",
                   "OverCurrentOff": "EVENT_OVER_CURRENT_OFF"}),

    # Requests.
    Cases(ASKS_FOR, {
        "SetConfiguration": Said("s ≡ fields # # (cond one 1 0) 0 0",
                                 ["TYPE_SET_CONFIGURATION",
                                  "REQUEST_SET_CONFIGURATION"]),
        "GetConfiguration": Said("s ≡ fields # # 0 0 1",
                                 ["TYPE_GET_CONFIGURATION",
                                  "REQUEST_GET_CONFIGURATION"]),
        "GetHubDescriptor": Said("s ≡ fields # # # 0 l",
                                 ["TYPE_GET_HUB", "REQUEST_GET_DESCRIPTOR",
                                  "HUB_DESCRIPTOR"]),
        "GetHubStatus": Said("s ≡ fields # # 0 0 4",
                             ["TYPE_GET_HUB", "REQUEST_GET_STATUS"]),
        "GetPortStatus": Said("Among n p × (s ≡ fields # # 0 p.0 4)",
                              ["TYPE_GET_PORT", "REQUEST_GET_STATUS"]),
        "ClearHubFeature": Said("(s ≡ fields # # # 0 0) "
                                "⊎ (s ≡ fields # # # 0 0)",
                                CLEAR_HUB + ["C_HUB_LOCAL_POWER"]
                                + CLEAR_HUB + ["C_HUB_OVER_CURRENT"]),
        "ClearPortFeature": Said("Among n p × (s ≡ fields # # "
                                 "(clearable_number f) p.0 0)",
                                 [SET_PORT, "REQUEST_CLEAR_FEATURE"]),
        "SetPortFeature": Said("Among n p × (s ≡ fields # # "
                               "(settable_number f) p.0 0)",
                               [SET_PORT, "REQUEST_SET_FEATURE"]),
        "ClearTTBuffer": Said("PipeInRange k × "
                              "((s ≡ fields # # (pipe_value # k) 1 0) "
                              "⊎ (s ≡ fields # # (pipe_value # k) 1 0))",
                              CLEAR_TT + ["TRANSFER_CONTROL"]
                              + CLEAR_TT + ["TRANSFER_BULK"]),
        "ResetTT": Said("s ≡ fields # # 0 1 0",
                        [SET_PORT, "REQUEST_RESET_TT"]),
    }, before="n s"),
    Shape(DESCRIPTOR, "descriptor i = # ∷ # ∷ i.ports",
          ["HUB_DESCRIPTOR_LENGTH", high_byte("HUB_DESCRIPTOR")]),
    Count(DESCRIPTOR, "HUB_DESCRIPTOR_LENGTH"),
    Cases(SETTABLES, {"Suspend": "PORT_SUSPEND", "Reset": "PORT_RESET",
                      "Power": "PORT_POWER"}),
    Cases(CLEARABLES, {"Enable": "PORT_ENABLE", "Suspend": "PORT_SUSPEND",
                       "Power": "PORT_POWER", "Change": "= change_number b"}),
    Cases(CHANGES, {"Connection": "C_PORT_CONNECTION",
                    "Enable": "C_PORT_ENABLE", "Suspend": "C_PORT_SUSPEND",
                    "OverCurrent": "C_PORT_OVER_CURRENT",
                    "Reset": "C_PORT_RESET"}),
    Shape(PIPE_VALUE, "t k = k.endpoint + # *",
          [unshifted("TT_ENDPOINT_SHIFT")]),
    Shape(PIPE_VALUE, "= k.endpoint + # * k.address.0 + # * t "
          "+ # * direction_bit k.direction",
          [shift("TT_ADDRESS_SHIFT"), shift("TT_TRANSFER_SHIFT"),
           shift("TT_DIRECTION_SHIFT")]),
    Cases(DIRECTION_BITS, {"Out": "DIRECTION_OUT", "In": "DIRECTION_IN"}),

    # Status.
    Bits(STATUS_LOW, 0, {"port_connection p.state": "STATUS_CONNECTION",
                         "port_enable p.state": "STATUS_ENABLE",
                         "port_suspend p.state": "STATUS_SUSPEND",
                         "p.overcurrent": "STATUS_OVER_CURRENT",
                         "port_reset p.state": "STATUS_RESET"}),
    Bits(STATUS_HIGH, 8, {"port_power p.state": "STATUS_POWER",
                          "port_low_speed p.state": "STATUS_LOW_SPEED",
                          "port_high_speed p.state": "STATUS_HIGH_SPEED"}),
    Bits(CHANGE_LOW, 0, {"c.connection": "CHANGE_CONNECTION",
                         "c.enable": "CHANGE_ENABLE",
                         "c.suspend": "CHANGE_SUSPEND",
                         "c.overcurrent": "CHANGE_OVER_CURRENT",
                         "c.reset": "CHANGE_RESET"}),

    # Reasons.
    Cases(REASONS, {"Nothing": "WHY_NONE", "Number": "WHY_NUMBER",
                    "HeldBy": "WHY_HELD", "Reused": "WHY_REUSED",
                    "TookFree": "WHY_TOOK_FREE", "LimitReached": "WHY_LIMIT",
                    "NoRoom": "WHY_NO_ROOM",
                    "Changed": Said("record { kind = #; ..", ["WHY_CHANGES"]),
                    "Wrong": "WHY_WRONG"}, "plain_bytes # .."),
    Cases(FAULTS, {"TypeOrCode": "WRONG_TYPE_OR_CODE",
                   "Unconfigured": "WRONG_UNCONFIGURED",
                   "Value": "WRONG_VALUE", "Index": "WRONG_INDEX",
                   "Length": "WRONG_LENGTH"}),

    # Recordings.
    Shape(RIGHT, "BadLength p l = length l ≡ #", ["BLOCK_LENGTH"]),
    Shape(UNDER_WAY, "length l ≡ #", ["BLOCK_LENGTH"]),
    Shape(COUNT_RIGHT, "count_of l ≤ #", ["BLOCK_USED_MAX"]),
    Shape(PADDED, "replicate (# - length used) 0", ["BLOCK_USED_MAX"]),
    Shape(WRITABLE, "length (written_all cs) ≤ #", ["RECORD_SPACE"]),
    Shape(WRITABLE, "p ≤ #", ["BLOCK_NUMBER_MAX"]),
    Shape(WRITER, "length l ≡ # → 1 ≤ p → p ≤ # → start_entry l p ≡ ? #",
          ["BLOCK_LENGTH", "BLOCK_NUMBER_MAX", "ANSWER_DONE"]),
    Shape(WRITER, "(p ≤ #))) → start_entry l p ≡ ? # l",
          ["BLOCK_NUMBER_MAX", "ANSWER_OUTSIDE"]),
    Shape(WRITER, "# < count_of l + length r → add_entry l r ≡ ? # l",
          ["BLOCK_USED_MAX", "ANSWER_NAK"]),
    Shape(ANSWERS_LENGTH, "= #", ["ANSWERS_LENGTH"]),
    Shape(REPLAYED, "number = #;", ["ANSWER_DONE"]),
    Shape(REPLAY, "(? # a o)) (? # a o)",
          ["ANSWER_NO_SPACE", "ANSWER_OUTSIDE"]),
    Cases(BLOCK_REFUSED, {"Ok": "REFUSED_NOT", "Err": "= fault_number f"}),
    Cases(BLOCK_REFUSALS, {"BadLength": "REFUSED_LENGTH",
                           "BadCheck": "REFUSED_CHECK",
                           "BadNumber": "REFUSED_NUMBER",
                           "BadCount": "REFUSED_COUNT",
                           "BadRecord": "REFUSED_RECORD"}),
    Cases(LAYOUTS, {"Control": "RECORD_CONTROL",
                    "Poll": "RECORD_POLL",
                    "StartSplit": "RECORD_START_SPLIT",
                    "CompleteSplit": "RECORD_COMPLETE_SPLIT",
                    "Launch": "RECORD_LAUNCH", "Deliver": "RECORD_DELIVER",
                    "LineEvent": "RECORD_LINE_EVENT", "Tick": "RECORD_TICK",
                    "BusReset": "RECORD_BUS_RESET"}, "laid # .."),

    # The area.
    Cases(STATES, {"NotConfigured": "STATE_NOT_CONFIGURED",
                   "PoweredOff": "STATE_POWERED_OFF",
                   "Disconnected": "STATE_DISCONNECTED",
                   "Disabled": "STATE_DISABLED",
                   "Resetting": "STATE_RESETTING",
                   "Enabled": "STATE_ENABLED",
                   "Suspended": "STATE_SUSPENDED",
                   "Resuming": "STATE_RESUMING"}),
    Cases(SPEEDS, {"Low": "SPEED_LOW", "Full": "SPEED_FULL",
                   "High": "SPEED_HIGH"}),
]

# Head, ports and buffers: 8 + 4 N + 72 B, for AREA_LENGTH_MAX.
AREA_PARTS = Shape(AREA_LENGTH, "(# + n * # + b * #)", [])

VERSIONED = "VERSION_NUMBER is made of it and compared"
UNCOMPARED = {
    "VERSION_MAJOR": VERSIONED,
    "VERSION_MINOR": VERSIONED,
    "VERSION_PATCH": VERSIONED,
    "STATE_NONE": "no state: the answer where there is no such port",
    "SPEED_NONE": "no speed: the answer where there is no device",
    "SETUP_NOTHING": "no field: for numbers that have no place in one",
}

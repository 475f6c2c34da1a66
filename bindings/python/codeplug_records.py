"""Contacts, channels and texts, written and read by the library. A blank is None: a channel that calls nobody, a tone that is off."""
from dataclasses import asdict, dataclass

from codeplug_c import (CALLSIGN_SIZE, CHANNEL_SIZE, CONTACT_SIZE, TEXT_SIZE, ChannelCommon, ChannelInfo, ContactValues, Edition, buffer,
                        c_uint64, filled, fit, library)
from codeplug_refused import accepted

BROADCAST = 0xFFFFFFFFFFFF
NOBODY = 65535


@dataclass(slots=True)
class DmrContact:
    id: int  # any
    contact_type: int = 0  # 0 group, 1 private, 2 all call
    rx_tone: bool = False


@dataclass(slots=True)
class M17Contact:
    address: int  # a callsign's number, 1 to 262,143,999,999,999, by the newer edition to 268,697,599,999,999; or BROADCAST


@dataclass(slots=True)
class Contact:
    name: str
    info: DmrContact | M17Contact


@dataclass(slots=True)
class FmInfo:
    """Tones by their index in the table, None where a tone is off. The file keeps an index for a tone that is off; it is in `kept`, which
    is written only then."""
    receive_tone: int | None = None
    transmit_tone: int | None = None
    receive_kept: int = 0
    transmit_kept: int = 0


@dataclass(slots=True)
class DmrInfo:
    receive_colour: int  # 0 to 15
    transmit_colour: int
    slot: int  # 1 or 2
    contact: int | None = None  # None: nobody


@dataclass(slots=True)
class M17Info:
    receive_access: int  # 0 to 15
    transmit_access: int
    operation: int  # 1 voice, 2 data, 3 both
    encryption: int = 0  # 0 plain, 1 AES-256, 2 scrambler
    position: bool = False
    contact: int | None = None  # None: nobody


MODES = [FmInfo, DmrInfo, M17Info]


@dataclass(slots=True)
class Channel:
    """A latitude is its floor in whole degrees and ten-thousandths above it: -33.8675 is -34 and 1325. So is a longitude."""
    name: str
    description: str
    receive_hz: int
    transmit_hz: int
    info: FmInfo | DmrInfo | M17Info
    bandwidth: int = 0  # 0, 1, 2: 12.5, 20 and 25 kHz
    receive_only: bool = False
    power: int = 0  # any; by the format, fifths of a dBm above 10 dBm: 5 is 11 dBm
    scan_list: int = 0  # 0 to 250
    group_list: int = 0  # 0 to 128
    latitude: int = 0  # -90 to 90
    latitude_e4: int = 0  # 0 to 9,999, and 0 where latitude is 90
    longitude: int = 0  # any
    longitude_e4: int = 0  # 0 to 9,999
    altitude_plus_500: int = 500  # metres, plus 500

    @property
    def mode(self):
        """0 FM, 1 DMR, 2 M17."""
        return MODES.index(type(self.info))


def text_of(field):
    """The text of a field that the library has accepted: bytes 0x20 to 0x7E, then zeros."""
    return field.split(b"\0", 1)[0].decode("ascii")


def bytes_of(text):
    """A text for the library to validate, whatever it holds."""
    return text.encode("utf-8", "surrogatepass")


def write_text(text):
    """A text as its field of 32 bytes, as the edits of banks and of the header carry it. Refusal: 5."""
    raw, out = bytes_of(text), buffer(TEXT_SIZE)
    accepted(library.codeplug_write_text(out, len(out), raw, len(raw)))
    return out.raw


def contact_of(name, values):
    if values.mode == 1:
        return Contact(text_of(name), DmrContact(values.id, values.contact_type, values.rx_tone))
    return Contact(text_of(name), M17Contact(BROADCAST if values.broadcast else values.address))


def write_contact(contact, *, edition=Edition.OLDER):
    """A contact's record. Refusals: 5 at 0, 8 at 33 or 7 at 37."""
    name, info, out = bytes_of(contact.name), contact.info, buffer(CONTACT_SIZE)
    if isinstance(info, DmrContact):
        values = filled(ContactValues, mode=1, id=info.id, contact_type=info.contact_type, rx_tone=info.rx_tone)
    elif info.address == BROADCAST:
        values = filled(ContactValues, mode=2, broadcast=True)
    else:
        values = filled(ContactValues, mode=2, address=info.address)
    accepted(library.codeplug_write_contact(out, len(out), name, len(name), values, Edition(edition)))
    return out.raw


def info_of(i):
    if i.mode == 0:
        receive_tone = i.receive_tone if i.receive_tone_on else None
        transmit_tone = i.transmit_tone if i.transmit_tone_on else None
        return FmInfo(receive_tone, transmit_tone, i.receive_tone, i.transmit_tone)
    contact = None if i.contact == NOBODY else i.contact
    if i.mode == 1:
        return DmrInfo(i.receive_colour, i.transmit_colour, i.slot, contact)
    return M17Info(i.receive_access, i.transmit_access, i.operation, i.encryption, i.position, contact)


def channel_of(texts, common, info):
    rest = {name: getattr(common, name) for name, _ in ChannelCommon._fields_}
    return Channel(name=text_of(texts[:TEXT_SIZE]), description=text_of(texts[TEXT_SIZE:]), info=info_of(info), **rest)


def info_values(channel):
    info = dict(asdict(channel.info), mode=channel.mode)
    if channel.mode == 0:
        for tone, kept in ("receive_tone", "receive_kept"), ("transmit_tone", "transmit_kept"):
            off = info.pop(kept)
            info[tone + "_on"] = info[tone] is not None
            info[tone] = info[tone] if info[tone + "_on"] else off
    elif info["contact"] is None:
        info["contact"] = NOBODY
    return filled(ChannelInfo, **info)


def write_channel(channel):
    """A channel's record. Refusals: 7 and 5 by field. A contact of 65,535 is nobody, as in a file; whether another contact is there,
    only the file can say."""
    name, description, out = bytes_of(channel.name), bytes_of(channel.description), buffer(CHANNEL_SIZE)
    common = filled(ChannelCommon, **{field: getattr(channel, field) for field, _ in ChannelCommon._fields_})
    info = info_values(channel)
    accepted(library.codeplug_write_channel(out, len(out), name, len(name), description, len(description), common, info))
    return out.raw


def encode_callsign(text, *, edition=Edition.OLDER):
    """A callsign's number. Refusals: 20, 21, 22. A hash sign counts as a character; by the newer edition it is refused, 21, where it does
    not stand first, by the older one wherever it stands."""
    raw = bytes_of(text)
    return accepted(library.codeplug_encode_callsign(raw, len(raw), Edition(edition))).address


def decode_address(number, *, edition=Edition.OLDER):
    """A number's callsign, None where it is BROADCAST. Refusal: 23."""
    out = buffer(CALLSIGN_SIZE)
    number = fit(c_uint64, number, "an address")
    answer = accepted(library.codeplug_decode_address(number, out, len(out), Edition(edition)))
    return None if answer.broadcast else text_of(out.raw)

"""The tools that bench/interop asks: tshark, libsrtp2 and OpenSSL."""
import collections, ctypes, ctypes.util, os, re, shutil, struct, subprocess, sys
from dataclasses import replace

from interop_conference import full_field, head_of, is_rtcp, originals, without_field

SECONDS = 600
RTP_PORT, RTCP_PORT = 5004, 5005
# the types of RTCP that tshark reads to the SSRC
RTCP_TYPES = range(200, 208)
# replay windows of libsrtp2: its widest, and that of a member and of a distributor
WIDEST, WINDOW = 32767, 128
# octets of a master salt and of a tag
SALT, TAG = 12, 16
# libsrtp2's statuses for what a report refuses hop by hop
STATUS_OF = {"tag": 7, "repeated": 9, "old": 10}
# what a receiver refuses before it looks at indices and tags, or for want of room of its own
NOT_ASKED = {
    "not-media", "no-field", "ekt-type", "ekt-length", "rtp-short", "rtp-version", "rtp-extension", "own-stream", "outer-short",
    "stream-limit", "rtcp-short", "rtcp-version", "rtcp-clear",
}


class Tool:
    """What one tool read, and what differs; `name` is None where it isn't installed."""

    def __init__(self, package):
        self.package = package
        self.name = None
        self.read = collections.Counter()
        self.differ = []

    def told(self):
        if self.name is None:
            return f"{self.package} isn't installed: not asked"
        return f"{self.name}: {', '.join(f'{count} {what}' for what, count in self.read.items())}; {len(self.differ)} differ"


class Tshark(Tool):
    RTP_FIELDS = ["rtp.version", "rtp.p_type", "rtp.seq", "rtp.marker", "rtp.timestamp", "rtp.ssrc", "rtp.padding"]
    RTP_FIELDS += ["rtp.csrc.item", "rtp.ext.profile", "rtp.ext.len"]
    # the SSRC stands under one of two names, by the packet's type
    RTCP_FIELDS = ["rtcp.version", "rtcp.pt", "rtcp.senderssrc", "rtcp.ssrc.identifier"]

    def __init__(self):
        super().__init__("tshark")
        self.read.update({"RTP headers read": 0, "RTCP headers read": 0, "accept lines compared": 0})
        if shutil.which("tshark"):
            told = subprocess.run(["tshark", "--version"], capture_output=True, text=True, timeout=SECONDS).stdout
            self.name = "tshark " + re.search(r"\d+(\.\d+)+", told).group()

    @staticmethod
    def frame(wire, port):
        """The datagram in UDP over 127.0.0.1, as a record of a capture file."""
        octets = wire.octets
        ip = struct.pack(">BBHHHBBH4s4s", 0x45, 0, 28 + len(octets), 0, 0, 64, 17, 0, b"\x7f\0\0\1", b"\x7f\0\0\1")
        total = sum(struct.unpack(">10H", ip))
        check = ~((total & 0xffff) + (total >> 16)) & 0xffff
        packet = ip[:10] + struct.pack(">H", check) + ip[12:] + struct.pack(">HHHH", port, port, 8 + len(octets), 0) + octets
        return struct.pack("<IIII", wire.number, 0, len(packet), len(packet)) + packet

    def look(self, conference, folder):
        """Compares what tshark reads with the lines."""
        if self.name is None:
            return
        asked = [wire for wire in conference.wires if (wire.octets[1] in RTCP_TYPES if is_rtcp(wire.octets) else wire.head)]
        path = os.path.join(folder, "pcap")
        with open(path, "wb") as out:
            # raw IP, version 2.4 of the format, little-endian
            out.write(struct.pack("<IHHiIII", 0xa1b2c3d4, 2, 4, 0, 0, 65535, 101))
            for wire in asked:
                out.write(self.frame(wire, RTCP_PORT if is_rtcp(wire.octets) else RTP_PORT))
        fields = self.RTP_FIELDS + self.RTCP_FIELDS
        command = ["tshark", "-n", "-r", path, "-d", f"udp.port=={RTP_PORT},rtp", "-d", f"udp.port=={RTCP_PORT},rtcp", "-T", "fields"]
        command += [word for field in fields for word in ("-e", field)]
        run = subprocess.run(command, capture_output=True, text=True, timeout=SECONDS)
        lines = run.stdout.splitlines()
        if run.returncode != 0 or len(lines) != len(asked):
            self.differ.append(f"tshark read {len(lines)} of {len(asked)} datagrams: {run.stderr.strip()}")
            return
        heads = {}
        for wire, line in zip(asked, lines):
            told = [self.numbers(word) for word in line.split("\t")]
            if is_rtcp(wire.octets):
                self.rtcp(wire, *told[len(self.RTP_FIELDS):])
            else:
                heads[wire.number] = told[:len(self.RTP_FIELDS)]
                self.rtp(wire, heads[wire.number])
        for taking in conference.takings:
            if taking.accepted:
                self.accepted(conference, taking, heads)

    @staticmethod
    def numbers(word):
        """The numbers that tshark tells of one field."""
        return [{"True": 1, "False": 0}[it] if it in ("True", "False") else int(it, 0) for it in word.split(",") if it]

    def rtp(self, wire, told):
        """The fields of one header."""
        if not told[0]:
            self.differ.append(f"wire {wire.number}: tshark reads no RTP header")
            return
        self.read["RTP headers read"] += 1
        head = wire.head
        asked = [[it] for it in (2, head.pt, head.seq, head.marker, head.timestamp, head.ssrc, head.padding)] + [list(head.sources)]
        extension = head.extension
        asked += [[], []] if extension is None else [[int.from_bytes(extension[:2], "big")], [len(extension) // 4]]
        for field, read, it in zip(self.RTP_FIELDS, told, asked):
            if read != it:
                self.differ.append(f"wire {wire.number}: tshark reads {field} {read}, and the lines tell {it}")

    def rtcp(self, wire, version, pt, sender, identifier):
        if not version:
            self.differ.append(f"wire {wire.number}: tshark reads no RTCP header")
            return
        self.read["RTCP headers read"] += 1
        plain = wire.rtcp or wire.octets
        told = version[:1] + pt[:1] + (sender or identifier)[:1]
        if told != [2, plain[1], int.from_bytes(plain[4:8], "big")]:
            self.differ.append(f"wire {wire.number}: tshark reads version, type and SSRC {told}, and the lines tell {plain[:8].hex()}")

    def accepted(self, conference, taking, heads):
        """The accept line gives what tshark reads in the send's own datagram."""
        self.read["accept lines compared"] += 1
        wire = conference.send_of(taking)
        told = heads.get(wire.number, [])[1:5] if wire else None
        if told != [[int(it)] for it in taking.accepted[2:6]]:
            self.differ.append(f"accept {taking.wire.number} {taking.at}: tshark reads {told} in datagram {taking.accepted[1]}")


class Libsrtp(Tool):
    def __init__(self, folder):
        super().__init__("libsrtp2 (libsrtp2-dev and gcc)")
        self.read.update({"outer layers opened": 0, "RTCP packets opened": 0, "opened in order": 0, "refused in order": 0})
        self.program = os.path.join(folder, "srtp")
        source = os.path.join(os.path.dirname(os.path.abspath(__file__)), "interop_srtp.c")
        command = ["cc", "-o", self.program, source, "-lsrtp2"]
        if shutil.which("cc") and subprocess.run(command, capture_output=True, timeout=SECONDS).returncode == 0:
            self.name = self.ask([])[0]

    def ask(self, lines):
        run = subprocess.run([self.program], input="".join(f"{line}\n" for line in lines), capture_output=True, text=True, timeout=SECONDS)
        if run.returncode != 0:
            sys.exit(f"{self.program}: {run.stderr.strip() or run.returncode}")
        return run.stdout.splitlines()

    def line(self, receivers, window, wire, master, at):
        """What is asked about a datagram: its field is taken off, and a receiver is one of this pass that has this master."""
        rtcp = is_rtcp(wire.octets)
        packet = wire.octets if rtcp else (without_field(wire.octets) or (wire.octets, None))[0]
        if at is None:
            receiver, roc = receivers.setdefault(master, len(receivers)), 0
        else:
            receiver, roc = "once", at // 65536
        return f"{receiver} {window} {roc} {'rtcp' if rtcp else 'rtp'} {master.hex()} {packet.hex()}"

    def look(self, conference):
        """Opens each outer layer, then takes the datagrams as the script does; what opened is kept."""
        if self.name is None:
            return
        known = [wire for wire in conference.wires if wire.master]
        receivers = {}
        lines = [self.line(receivers, WIDEST, wire, wire.master, wire.index if wire.kind == "reseal" else None) for wire in known]
        for wire, answer in zip(known, self.ask(lines)[1:]):
            self.wire(wire, answer.split(" "))
        asked = [taking for taking in conference.takings if taking.refused not in NOT_ASKED]
        receivers = {}
        lines = [self.line(receivers, WINDOW, taking.wire, taking.master, None) for taking in asked]
        for taking, answer in zip(asked, self.ask(lines)[1:]):
            self.taking(taking, answer.split(" "))

    def wire(self, wire, answer):
        rtcp = is_rtcp(wire.octets)
        if answer[0] != "open":
            self.differ.append(f"wire {wire.number}: libsrtp2 doesn't open it: status {answer[1]}")
            return
        self.read["RTCP packets opened" if rtcp else "outer layers opened"] += 1
        wire.opened = bytes.fromhex(answer[1])
        if wire.rtcp and wire.opened != wire.rtcp:
            self.differ.append(f"wire {wire.number}: libsrtp2 opens another RTCP packet")

    def taking(self, taking, answer):
        """One receiver's answer to one datagram."""
        layer, _, fault = (taking.refused or "").partition("-")
        status = STATUS_OF.get(fault) if layer in ("outer", "rtcp") else None
        if answer[0] == "open":
            taking.opened = bytes.fromhex(answer[1])
        told = ["open"] if status is None else ["refused", str(status)]
        if answer[:len(told)] != told:
            self.differ.append(f"datagram {taking.wire.number} at {taking.at}: libsrtp2 has {' '.join(answer)[:20]}, and the report {told}")
            return
        self.read["opened in order" if status is None else "refused in order"] += 1
        if taking.rtcp and taking.opened != taking.rtcp:
            self.differ.append(f"datagram {taking.wire.number} at {taking.at}: libsrtp2 opens another RTCP packet")


class OpenSsl(Tool):
    # of openssl/evp.h
    WRAP_ALLOW, SET_TAG = 1, 0x11
    POINTER, NUMBER, TEXT = ctypes.c_void_p, ctypes.c_int, ctypes.c_char_p
    CALLS = {
        "OpenSSL_version": (TEXT, [NUMBER]),
        "EVP_CIPHER_fetch": (POINTER, [POINTER, TEXT, TEXT]),
        "EVP_CIPHER_CTX_new": (POINTER, []),
        "EVP_CIPHER_CTX_free": (None, [POINTER]),
        "EVP_CIPHER_CTX_set_flags": (None, [POINTER, NUMBER]),
        "EVP_CIPHER_CTX_ctrl": (NUMBER, [POINTER, NUMBER, NUMBER, POINTER]),
        "EVP_CipherInit_ex": (NUMBER, [POINTER, POINTER, POINTER, TEXT, TEXT, NUMBER]),
        "EVP_CipherUpdate": (NUMBER, [POINTER, POINTER, POINTER, TEXT, NUMBER]),
        "EVP_CipherFinal_ex": (NUMBER, [POINTER, POINTER, POINTER]),
    }

    def __init__(self):
        super().__init__("OpenSSL 3 (libssl3)")
        self.read.update({"outer layers opened": 0, "inner layers opened": 0, "wrapped keys opened": 0, "RTCP packets opened": 0})
        self.read.update({"accept lines compared": 0})
        self.ciphers, self.sessions = {}, {}
        try:
            self.library = ctypes.CDLL(ctypes.util.find_library("crypto"))
            for call, (gives, takes) in self.CALLS.items():
                getattr(self.library, call).restype = gives
                getattr(self.library, call).argtypes = takes
            self.name = " ".join(self.library.OpenSSL_version(0).decode().split()[:2])
        except (OSError, AttributeError, TypeError):
            pass

    def cipher(self, name, key, text, encrypt=False, iv=None, aad=None, tag=None):
        """What OpenSSL's cipher of this name makes of the text; None where it refuses."""
        library, taken = self.library, ctypes.c_int()
        name = name.format(8 * len(key)).encode()
        if name not in self.ciphers:
            self.ciphers[name] = library.EVP_CIPHER_fetch(None, name, None)
        out = ctypes.create_string_buffer(len(text) + 32)
        context = library.EVP_CIPHER_CTX_new()
        try:
            library.EVP_CIPHER_CTX_set_flags(context, self.WRAP_ALLOW)
            if library.EVP_CipherInit_ex(context, self.ciphers[name], None, key, iv, int(encrypt)) <= 0:
                return None
            if aad is not None and library.EVP_CipherUpdate(context, None, ctypes.byref(taken), aad, len(aad)) <= 0:
                return None
            if library.EVP_CipherUpdate(context, out, ctypes.byref(taken), text, len(text)) <= 0:
                return None
            given = out.raw[:taken.value]
            if tag is not None:
                library.EVP_CIPHER_CTX_ctrl(context, self.SET_TAG, len(tag), ctypes.cast(ctypes.c_char_p(tag), ctypes.c_void_p))
                if library.EVP_CipherFinal_ex(context, out, ctypes.byref(taken)) <= 0:
                    return None
            return given
        finally:
            library.EVP_CIPHER_CTX_free(context)

    def derived(self, master, label, length):
        """Octets derived from a master (RFC 3711 section 4.3.1); its salt of 12 octets is padded (RFC 7714 section 11)."""
        salt = bytearray(master[-SALT:] + bytes(2))
        salt[7] ^= label
        blocks = (self.cipher("AES-{}-ECB", master[:-SALT], bytes(salt) + at.to_bytes(2, "big"), encrypt=True) for at in range(2))
        return b"".join(blocks)[:length]

    def session(self, master, label):
        """Session key and salt: labels 0 and 2 for SRTP, 3 and 5 for SRTCP."""
        if (master, label) not in self.sessions:
            self.sessions[master, label] = self.derived(master, label, len(master) - SALT), self.derived(master, label + 2, SALT)
        return self.sessions[master, label]

    def opened(self, session, number, aad, sealed):
        """Opens with AES-GCM under this session, the number being the IV's before the salt (RFC 7714 sections 8 and 9)."""
        if len(sealed) < TAG:
            return None
        key, salt = session
        iv = bytes(a ^ b for a, b in zip(number, salt))
        return self.cipher("AES-{}-GCM", key, sealed[:-TAG], iv=iv, aad=aad, tag=sealed[-TAG:])

    def layer(self, master, index, header, sealed):
        """One layer of SRTP; None where its tag doesn't verify."""
        return self.opened(self.session(master, 0), bytes(2) + header[8:12] + index.to_bytes(6, "big"), header, sealed)

    def rtcp(self, master, packet):
        """An SRTCP packet; None where its tag doesn't verify."""
        head, sealed, word = packet[:8], packet[8:-4], packet[-4:]
        number = bytes(2) + head[4:8] + bytes(2) + (int.from_bytes(word, "big") & 0x7fffffff).to_bytes(4, "big")
        body = self.opened(self.session(master, 3), number, head + word, sealed)
        return None if body is None else head + body

    def look(self, conference):
        """Opens everything whose keys are known."""
        if self.name is None:
            return
        opened = {}
        for wire in conference.wires:
            if wire.master and is_rtcp(wire.octets):
                self.wire_rtcp(wire)
            elif wire.master and wire.index is not None:
                opened[wire.number] = self.wire(wire)
        for taking in conference.takings:
            if taking.accepted:
                self.accepted(conference, taking, opened)

    def wire_rtcp(self, wire):
        plain = self.rtcp(wire.master, wire.octets)
        if plain is None:
            self.differ.append(f"wire {wire.number}: OpenSSL doesn't open the RTCP packet")
        elif plain != (wire.rtcp or plain) or plain != (wire.opened or plain):
            self.differ.append(f"wire {wire.number}: OpenSSL opens another RTCP packet")
        else:
            self.read["RTCP packets opened"] += 1

    def wire(self, wire):
        """Opens a datagram's layers and its wrapped key; gives header and what the outer layer held."""
        parts = without_field(wire.octets)
        read = parts and head_of(parts[0])
        if not read:
            self.differ.append(f"wire {wire.number}: it has no header or no EKT field")
            return None
        if read[0] != wire.head:
            self.differ.append(f"wire {wire.number}: its header is {read[0]}, and the lines tell {wire.head}")
        packet, field = parts
        header, sealed = packet[:read[1]], packet[read[1]:]
        outer = self.layer(wire.master, wire.index, header, sealed)
        if outer is None:
            self.differ.append(f"wire {wire.number}: OpenSSL doesn't open the outer layer")
        else:
            self.read["outer layers opened"] += 1
            if wire.opened and wire.opened != header + outer:
                self.differ.append(f"wire {wire.number}: OpenSSL opens {(header + outer).hex()}, and libsrtp2 {wire.opened.hex()}")
            if wire.sent and self.inner(f"wire {wire.number}", wire.sent, header, outer):
                self.read["inner layers opened"] += 1
        if wire.sent and field != b"\0":
            self.wrapped(wire, full_field(field))
        return outer and header + outer

    def inner(self, where, sent, header, outer):
        """Opens the inner layer with the sender's key: its header and payload, where it is the send's."""
        given = originals(header, outer)
        body = given and self.layer(sent.master, sent.index, *given)
        if body is None:
            self.differ.append(f"{where}: OpenSSL doesn't open the inner layer")
            return None
        head = head_of(given[0])[0]
        if head != replace(sent.head, extension=None) or body != sent.body:
            self.differ.append(f"{where}: OpenSSL opens {head} {body.hex()}, and the send is {sent.head} {sent.body.hex()}")
        return head, body

    def wrapped(self, wire, field):
        """Unwraps the key of a full field (RFC 8870 section 4.2.1, RFC 5649)."""
        sent = wire.sent
        plain = field and self.cipher("id-aes{}-wrap-pad", sent.ekt, field.wrapped)
        if plain is None:
            self.differ.append(f"wire {wire.number}: OpenSSL doesn't unwrap the key")
            return
        self.read["wrapped keys opened"] += 1
        key = sent.master[:-SALT]
        asked = bytes([len(key)]) + key + struct.pack(">II", sent.head.ssrc, sent.index // 65536)
        if plain != asked or (field.spi, field.epoch) != (sent.spi, sent.epoch):
            told = f"{plain.hex()} of SPI {field.spi}, epoch {field.epoch}"
            self.differ.append(f"wire {wire.number}: OpenSSL unwraps {told}, and the script has {asked.hex()} of {sent.spi}, {sent.epoch}")

    def accepted(self, conference, taking, opened):
        """The accept line gives what OpenSSL opens in the datagram that the member took."""
        where = f"accept {taking.wire.number} {taking.at}"
        wire = conference.send_of(taking)
        known = taking.wire.master == taking.master
        octets = opened.get(taking.wire.number) if known else taking.opened
        if wire is None or octets is None:
            # the outer index of a datagram that was made up is known from libsrtp2 alone
            if wire is None or known:
                self.differ.append(f"{where}: no datagram of that send is opened")
            return
        length = head_of(octets)[1]
        given = self.inner(where, wire.sent, octets[:length], octets[length:])
        if given is None:
            return
        self.read["accept lines compared"] += 1
        head, body = given
        payload = body[:-body[-1]] if head.padding else body
        told = [str(it) for it in (head.pt, head.seq, head.marker, head.timestamp)] + [payload.hex() or "-"]
        if told != taking.accepted[2:]:
            self.differ.append(f"{where}: OpenSSL opens {' '.join(told)}, and the line tells {' '.join(taking.accepted[2:])}")

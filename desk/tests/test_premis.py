"""PREMIS and METS of a bag: by the structural rules of both standards, and by the vault's own events and files."""

from __future__ import annotations

import csv
import hashlib
import io
import re
import subprocess
import urllib.parse
import xml.etree.ElementTree as ET
from collections.abc import Callable, Iterator, Mapping
from pathlib import Path

from tests.office import PROGRAM, OfficeTest
from vaultdesk import mets, premis

LATER = "2024-02-20T10:00:00Z"
TYPE = f"{{{premis.INSTANCE}}}type"
HREF = f"{{{mets.LINK}}}href"
# What may stand in an element, in which order and how often; in one that isn't named here, a text alone. These rules
# were written here, after the standards: Debian 12 has no package of their official schemas.
#
# PREMIS Data Dictionary 3.0: its numbers of semantic units are in the comments. Those that are mandatory are named
# plainly or with `+`.
PREMIS_RULES = {
    "premis": "object+ event* agent* rights*",
    # 1.1, 1.3, 1.4, 1.5 (mandatory of a file), 1.6, 1.7, 1.8, 1.13, 1.14, 1.15
    "object": "objectIdentifier+ preservationLevel* significantProperties* objectCharacteristics+ originalName?"
    " storage* signatureInformation* relationship* linkingEventIdentifier* linkingRightsStatementIdentifier*",
    "objectIdentifier": "objectIdentifierType objectIdentifierValue",  # 1.1.1, 1.1.2
    # 1.5.1 to 1.5.7; of these format is mandatory
    "objectCharacteristics": "compositionLevel? fixity* size? format+ creatingApplication* inhibitors*",
    "fixity": "messageDigestAlgorithm messageDigest messageDigestOriginator?",  # 1.5.2.1 to 1.5.2.3
    "format": "(formatDesignation formatRegistry?|formatRegistry) formatNote*",  # 1.5.4.1 to 1.5.4.3
    "formatDesignation": "formatName formatVersion?",  # 1.5.4.1.1, 1.5.4.1.2
    "storage": "(contentLocation storageMedium?|storageMedium)",  # 1.7.1, 1.7.2
    "contentLocation": "contentLocationType contentLocationValue",  # 1.7.1.1, 1.7.1.2
    "linkingEventIdentifier": "linkingEventIdentifierType linkingEventIdentifierValue",  # 1.14.1, 1.14.2
    # 2.1 to 2.7; the first three are mandatory
    "event": "eventIdentifier eventType eventDateTime eventDetailInformation* eventOutcomeInformation*"
    " linkingAgentIdentifier* linkingObjectIdentifier*",
    "eventIdentifier": "eventIdentifierType eventIdentifierValue",  # 2.1.1, 2.1.2
    "eventDetailInformation": "eventDetail? eventDetailExtension*",  # 2.4.1, 2.4.2
    # 2.6.1 to 2.6.3, and 2.7.1 to 2.7.3
    "linkingAgentIdentifier": "linkingAgentIdentifierType linkingAgentIdentifierValue linkingAgentRole*",
    "linkingObjectIdentifier": "linkingObjectIdentifierType linkingObjectIdentifierValue linkingObjectRole*",
    # 3.1 to 3.9; the first is mandatory
    "agent": "agentIdentifier+ agentName* agentType? agentVersion? agentNote* agentExtension* linkingEventIdentifier*",
    "agentIdentifier": "agentIdentifierType agentIdentifierValue",  # 3.1.1, 3.1.2
}
# METS 1.12: what its schema documentation says of each element.
METS_RULES = {
    "mets": "metsHdr? dmdSec* amdSec* fileSec? structMap+ structLink? behaviorSec*",  # its sections, in this order
    "metsHdr": "agent* altRecordID* metsDocumentID?",
    "agent": "name note*",
    "dmdSec": "mdRef? mdWrap?",
    "amdSec": "techMD* rightsMD* sourceMD* digiprovMD*",
    "digiprovMD": "mdRef? mdWrap?",
    "mdRef": "",
    "fileSec": "fileGrp+",
    "fileGrp": "(fileGrp*|file*)",
    "file": "FLocat* FContent? stream* transformFile* file*",
    "FLocat": "",
    "structMap": "div",
    "div": "mptr* fptr* div*",
    "fptr": "(par|seq|area)?",
}
# The attributes of METS that an element has to have, and after `|` those that it may have.
METS_ATTRIBUTES = {
    "mets": "| ID OBJID LABEL TYPE PROFILE", "metsHdr": "| ID ADMID CREATEDATE LASTMODDATE RECORDSTATUS",
    "agent": "ROLE | ID OTHERROLE TYPE OTHERTYPE", "dmdSec": "ID | GROUPID ADMID CREATED STATUS",
    "mdRef": "LOCTYPE MDTYPE | ID OTHERLOCTYPE OTHERMDTYPE MDTYPEVERSION MIMETYPE SIZE CREATED CHECKSUM CHECKSUMTYPE"
    " LABEL XPTR type href",
    "amdSec": "| ID", "digiprovMD": "ID | GROUPID ADMID CREATED STATUS", "fileGrp": "| ID VERSDATE ADMID USE",
    "file": "ID | SEQ MIMETYPE SIZE CREATED CHECKSUM CHECKSUMTYPE OWNERID ADMID DMDID GROUPID USE BEGIN END BETYPE",
    "FLocat": "LOCTYPE | ID OTHERLOCTYPE USE type href", "structMap": "| ID TYPE LABEL",
    "div": "| ID ORDER ORDERLABEL LABEL DMDID ADMID TYPE CONTENTIDS label", "fptr": "| ID FILEID CONTENTIDS",
}  # fmt: skip
# What the values of attributes and of texts are.
FORMS = {
    "LOCTYPE": "ARK|URN|URL|PURL|HANDLE|DOI|OTHER", "MDTYPE": "PREMIS|PREMIS:(OBJECT|AGENT|RIGHTS|EVENT)|DC|OTHER",
    "ROLE": "CREATOR|EDITOR|ARCHIVIST|PRESERVATION|DISSEMINATOR|CUSTODIAN|IPOWNER|OTHER",
    "CHECKSUMTYPE": "Adler-32|CRC32|HAVAL|MD5|MNP|SHA-1|SHA-256|SHA-384|SHA-512|TIGER|WHIRLPOOL",
    "ID": "[A-Za-z_][A-Za-z0-9._-]*", "SIZE": "[0-9]+", "CHECKSUM": "[0-9a-f]{64}", "type": "simple",
    "href": "[A-Za-z0-9/._~%-]+",
    "CREATEDATE": r"\d{4}-\d\d-\d\dT\d\d:\d\d:\d\dZ", "eventDateTime": r"\d{4}-\d\d-\d\dT\d\d:\d\d:\d\dZ",
    "size": "[0-9]+", "compositionLevel": "[0-9]+", "messageDigest": "[0-9a-f]{64}",
}  # fmt: skip


def plain(name: str) -> str:
    """A name without its space."""
    return name.rpartition("}")[2]


def faults(root: ET.Element, rules: Mapping[str, str], attributes: Mapping[str, str] | None = None) -> Iterator[str]:
    """What of an element and all below it isn't as the rules say."""
    for it in root.iter():
        name = plain(it.tag)
        if it.tag.partition("}")[0] != root.tag.partition("}")[0]:
            yield f"{it.tag} is of another space"
        below = "".join(f"{plain(child.tag)}," for child in it)
        if not re.fullmatch(re.sub(r"(\w+)", r"(\1,)", rules.get(name, "")).replace(" ", ""), below):
            yield f"{name} has {below or 'nothing'}"
        if name not in rules and not (it.text or "").strip():
            yield f"{name} has no text"
        if name in FORMS and not re.fullmatch(FORMS[name], it.text or ""):
            yield f"{name} is {it.text}"
        yield from _wrong_attributes(it, attributes)


def _wrong_attributes(it: ET.Element, attributes: Mapping[str, str] | None) -> Iterator[str]:
    name, there = plain(it.tag), {plain(name): value for name, value in it.attrib.items()}
    if attributes is not None:
        needed, allowed = (set(part.split()) for part in attributes.get(name, "|").split("|"))
        if not needed <= there.keys() <= needed | allowed:
            yield f"{name} has the attributes {sorted(there)}"
        yield from (f"{name} has {key}={value}" for key, value in there.items() if not is_form(key, value))


def is_form(key: str, value: str) -> bool:
    """Whether an attribute's value is one that it may have; some are free."""
    return key not in FORMS or re.fullmatch(FORMS[key], value) is not None


def of_premis(name: str) -> str:
    return f"{{{premis.SPACE}}}{name}"


def of_mets(name: str) -> str:
    return f"{{{mets.SPACE}}}{name}"


# An element, what breaks a rule of it, and what is said of that.
BREAKS: list[tuple[str, Callable[[ET.Element], object], str]] = [
    (of_premis("fixity"), lambda it: it.remove(it[1]), "^fixity has messageDigestAlgorithm,$"),
    (of_premis("event"), lambda it: it.remove(it[1]), "^event has eventIdentifier,eventDateTime,"),
    (of_premis("object"), lambda it: it.append(it[0]), "^object has objectIdentifier,.*,objectIdentifier,$"),
    (of_premis("premis"), lambda it: it.insert(0, it[-1]), "^premis has agent,object"),
    (of_premis("formatName"), lambda it: setattr(it, "text", " "), "^formatName has no text"),
    (of_premis("eventDateTime"), lambda it: setattr(it, "text", "2024-01-15"), "^eventDateTime is 2024-01-15"),
    (of_premis("format"), lambda it: setattr(it, "tag", of_mets("format")), "format is of another space"),
    (of_mets("mets"), lambda it: it.append(it[3]), "^mets has .*structMap,fileSec,$"),
    (of_mets("structMap"), lambda it: it.append(it[0]), "^structMap has div,div,$"),
    (of_mets("file"), lambda it: it.attrib.pop("ID"), r"^file has the attributes \['ADMID'"),
    (of_mets("FLocat"), lambda it: it.set("LOCTYPE", "PLACE"), "^FLocat has LOCTYPE=PLACE"),
    (of_mets("fptr"), lambda it: it.set("PLACE", "x"), r"^fptr has the attributes \['FILEID', 'PLACE'\]"),
]


def below(it: ET.Element, name: str) -> str:
    """The text of the first PREMIS element of that name in an element, or the empty text."""
    return it.findtext(f".//{of_premis(name)}") or ""


def text(it: ET.Element, *path: str) -> str:
    """The text of an element below another one of PREMIS."""
    found = it.findtext("/".join(of_premis(name) for name in path))
    assert found is not None, path
    return found


class Rules(OfficeTest):
    def setUp(self) -> None:
        super().setUp()
        self.bag = self.folder / "bag"
        self.live()

    def live(self) -> None:
        """Has documents live: versions with and without locks, a hold, a move, removals by a caller and by a rule."""
        by_registrar = {"as": "registrar"}
        self.lines(
            {**by_registrar, "do": "add-bucket", "bucket": "office", "dept": "records"},
            {**by_registrar, "do": "add-dept", "dept": "court"},
            {**by_registrar, "do": "add-caller", "caller": "eva", "dept": "court", "rights": ["put", "get", "list"]},
            {"do": "put", "bucket": "docs", "key": "2024/ä 1%.txt", "text": "older"},
            {"do": "put", "bucket": "docs", "key": "2024/ä 1%.txt", "text": "", "mode": "GOVERNANCE",
             "until": "2030-01-01T00:00:00Z"},
            {"do": "put", "bucket": "docs", "key": "2024/\u200b<&>", "text": "two"},
            {"do": "put", "bucket": "docs", "key": "other", "text": "three"},
            {"do": "put", "bucket": "office", "key": "2024/ö 4", "text": "of another bucket"},
            {"do": "put", "bucket": "docs", "key": "2024/ö 4", "text": "four"},
            {"do": "set-hold", "bucket": "docs", "key": "2024/ä 1%.txt", "id": 2, "hold": "ON"},
        )
        self.done("people", "add", "ann", "Anna Berg", "--from", "2024-01-01", "--until", "2024-01-16")
        removed = (("docs", "2024/ä 1%.txt", 1), ("office", "2024/ö 4", 5))
        for bucket, key, number in removed:
            line = {"do": "delete-version", "bucket": bucket, "key": key, "id": number}
            self.lines(line, at="2024-01-16T09:00:00Z")
        moved = {**by_registrar, "do": "move-bucket", "bucket": "docs", "dept": "court"}
        self.lines(moved, at="2024-01-17T09:00:00Z")

    def exported(self, *words: str, at: str = LATER, folder: str = "bag") -> tuple[ET.Element, ET.Element]:
        """PREMIS and METS of a bag that the desk makes of what begins with `2024/`."""
        self.bag = self.folder / folder
        more = ("--prefix", "2024/", "--as", "eva", *words)
        self.done("export", "docs", str(self.bag), "--bagit", "--premis", *more, at=at)
        return ET.parse(self.bag / "premis.xml").getroot(), ET.parse(self.bag / "mets.xml").getroot()

    def test_premis_is_as_the_data_dictionary_says(self) -> None:
        record, _ = self.exported("--all-versions")
        self.assertEqual(list(faults(record, PREMIS_RULES)), [])
        self.assertEqual((record.tag, record.attrib), (of_premis("premis"), {"version": "3.0"}))
        self.assertEqual({it.get(TYPE) for it in record.findall(of_premis("object"))}, {"premis:file"})
        # The value of a type is a name with a prefix: that has to be PREMIS's.
        self.assertIn(f'xmlns:premis="{premis.SPACE}"', (self.bag / "premis.xml").read_text())

    def test_mets_is_as_its_schema_says(self) -> None:
        _, parts = self.exported("--all-versions", "--names")
        self.assertEqual(list(faults(parts, METS_RULES, METS_ATTRIBUTES)), [])
        ids = [it.get("ID") for it in parts.iter() if it.get("ID")]
        self.assertEqual(len(ids), len(set(ids)))
        named = [it.get(name) for it in parts.iter() for name in ("ADMID", "DMDID", "FILEID") if it.get(name)]
        self.assertLessEqual(set(named), set(ids))
        self.assertEqual(len([it for it in parts.iter() if it.get("FILEID")]), 3)

    def test_what_breaks_a_rule_is_found(self) -> None:
        record, parts = self.exported()
        for place, damage, said in BREAKS:
            root, rules, attributes = (record, PREMIS_RULES, None) if premis.SPACE in place else (
                parts, METS_RULES, METS_ATTRIBUTES)  # fmt: skip
            broken = ET.fromstring(ET.tostring(root))
            damage(next(broken.iter(place)))
            self.assertRegex("; ".join(faults(broken, rules, attributes)), said)

    def test_the_events_are_those_of_the_vault(self) -> None:
        record, _ = self.exported("--all-versions")
        done = subprocess.run([PROGRAM, "events", str(self.file)], check=True, capture_output=True, encoding="utf-8")
        rows = list(csv.DictReader(io.StringIO(done.stdout, newline="")))
        kinds = {"admitted": "ingestion", "locked": "policy assignment", "moved": "transfer", "removed": "deletion"}
        wanted = sorted(
            (f"records/{it['version']}", kinds[it["event"]], it["moment"], it["by"] and f"records/{it['by']}")
            for it in rows if it["bucket"] == "docs" and it["key"].startswith("2024/")
        )  # fmt: skip
        found = sorted(
            (text(it, "linkingObjectIdentifier", "linkingObjectIdentifierValue"), text(it, "eventType"),
             text(it, "eventDateTime"),
             below(it, "linkingAgentIdentifierValue"))
            for it in record.findall(of_premis("event"))
        )  # fmt: skip
        self.assertEqual(found, wanted)
        self.assertEqual({it[1] for it in found}, set(kinds.values()))

    def test_what_a_rule_removed_names_the_rule(self) -> None:
        self.bag = self.folder / "bag"
        notes = {"as": "registrar", "do": "add-bucket", "bucket": "notes", "dept": "records"}
        rule = {"ID": "old", "Status": "Enabled", "NoncurrentVersionExpiration": {"NoncurrentDays": 1}}
        self.lines(notes, {"do": "set-rules", "bucket": "notes", "rules": [rule]},
                   {"do": "put", "bucket": "notes", "key": "n", "text": "a"},
                   {"do": "put", "bucket": "notes", "key": "n", "text": "b"}, at="2024-01-18T09:00:00Z")
        self.lines({"do": "run", "bucket": "notes"}, at="2024-02-18T09:00:00Z")
        self.done("export", "notes", str(self.bag), "--bagit", "--premis", "--all-versions", at=LATER)
        record = ET.parse(self.bag / "premis.xml").getroot()
        self.assertEqual(list(faults(record, PREMIS_RULES)), [])
        agents = {text(it, "agentIdentifier", "agentIdentifierValue"): text(it, "agentName")
                  for it in record.findall(of_premis("agent"))}  # fmt: skip
        self.assertEqual(agents, {"records/ann": "Anna Berg", "records/notes/old": "old"})

    def test_objects_are_the_files(self) -> None:
        record, parts = self.exported("--all-versions", "--names")
        there = {}
        for it in record.findall(of_premis("object")):
            place = below(it, "contentLocationValue")
            if place:
                content = (self.bag / place).read_bytes()
                fixity = text(it, "objectCharacteristics", "fixity", "messageDigest")
                there[place] = (fixity, text(it, "objectCharacteristics", "size"))
                self.assertEqual(there[place], (hashlib.sha256(content).hexdigest(), str(len(content))))
        files = (it for it in self.bag.glob("data/**/*") if it.is_file())
        self.assertEqual(set(there), {str(it.relative_to(self.bag)) for it in files})
        located = {urllib.parse.unquote(it[0].get(HREF, "")): (it.get("CHECKSUM"), it.get("SIZE"))
                   for it in parts.iter(of_mets("file"))}  # fmt: skip
        self.assertEqual(located, there)
        for it in parts.iter(of_mets("mdRef")):
            content = (self.bag / it.get(HREF, "")).read_bytes()
            sums = (hashlib.sha256(content).hexdigest(), str(len(content)))
            self.assertEqual((it.get("CHECKSUM"), it.get("SIZE")), sums)
        self.assertEqual(text(record, "object", "originalName"), "2024/ä 1%.txt")
        self.assertIn(r"2024/\u200b<&>", [it.text for it in record.iter(of_premis("originalName"))])

    def links(self, record: ET.Element) -> dict[str, set[str]]:
        """The values of all identifiers, by their names."""
        found: dict[str, set[str]] = {}
        for it in record.iter():
            if it.tag.endswith("IdentifierValue"):
                found.setdefault(plain(it.tag).removesuffix("IdentifierValue"), set()).add(it.text or "")
        return found

    def test_links_lead_somewhere_and_ids_stay(self) -> None:
        record, _ = self.exported("--all-versions")
        first = self.links(record)
        for name in ("Event", "Agent", "Object"):
            self.assertEqual(first[f"linking{name}"], first[name.lower()])
        self.assertEqual(len(first["event"]), len(record.findall(of_premis("event"))))
        self.lines({"do": "put", "bucket": "docs", "key": "2024/ä 1%.txt", "as": "eva", "text": "x"}, at=LATER)
        record, _ = self.exported("--all-versions", at="2024-02-21T10:00:00Z", folder="later")
        later = self.links(record)
        self.assertLess(first["event"], later["event"])
        self.assertLess(first["object"], later["object"])

    def test_persons_are_those_of_the_moment(self) -> None:
        record, _ = self.exported("--all-versions")
        said = {text(it, "eventIdentifier", "eventIdentifierValue"): text(it, "eventDetailInformation", "eventDetail")
                for it in record.findall(of_premis("event"))}  # fmt: skip
        self.assertIn("; by ann (Anna Berg)", said["records/1/admitted"])
        self.assertTrue(said["records/1/removed"].endswith("; by ann"), said["records/1/removed"])
        [ann] = [it for it in record.findall(of_premis("agent")) if text(it, "agentName") == "Anna Berg"]
        self.assertEqual(text(ann, "agentType"), "person")
        self.assertEqual(text(ann, "agentNote"), "Anna Berg from 2024-01-01 until 2024-01-16")

    def test_what_is_exported_alone_is_there(self) -> None:
        record, _ = self.exported()
        self.assertEqual({it.text for it in record.iter(of_premis("contentLocationValue"))},
                         {"data/2.txt", "data/3", "data/6"})
        self.assertEqual(len(record.findall(of_premis("object"))), 3)
        self.assertEqual(self.desk("export", "docs", str(self.folder / "new"), "--premis").status, 2)

    def test_it_is_a_bag_that_is_taken_in(self) -> None:
        self.exported()
        self.lines({"as": "registrar", "do": "add-bucket", "bucket": "again", "dept": "records"}, at=LATER)
        deliver = ("deliver", str(self.bag), "--bag", "--bucket", "again", "--batch", "b1", "--yes")
        done = self.desk(*deliver, at="2024-02-21T10:00:00Z")
        self.assertIn("3 of 3 rows are in the vault", done.out)
        Path(self.bag / "premis.xml").write_text("<premis/>")
        done = self.desk(*deliver, at="2024-02-21T10:00:00Z")
        self.assertRegex(done.err, "premis.xml: its content has another digest")

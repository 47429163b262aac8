#!/usr/bin/env python3
"""Looks for the names by which the calls and types of the crates were asked for: each is in the crate for which it was asked, or in the list of
docs/DECISIONS.md; and what that list says is here is here.

Usage: python3 tests/asked.py
"""

import glob
import re
import sys

ASKED = {
    "card_core": "Card Statement read_statements CardFault",
    "jname_core": "Name8 DsName Key read_ds_name base_of generation_of",
    "jcl_parse": "JobCard ExecCard DdCard ProcCard read_job read_exec read_dd",
    "jcl_procs": "ProcLibrary substitute expand FlatStep ProcFault",
    "jcl_refs": "UnitNames resolve RefFault",
    "jcl_meaning": "JobPlan StepPlan DdPlan Outcome Entry Fault SoloStore solo SoloRun",
    "cond_core": "fate History Fate code_classes CodeClasses",
    "cb_records": "Rec read_rec JctView SctView SiotView JfcbView FreeView",
    "cb_queue": "RecordStore get put take_free give_back ListStore ChainStore",
    "cb_chain": "write_job JobNo RecNo QueueFault read_chain Broken",
    "cat_core": "Catalog find enter remove make_group resolve_relative enter_generation Rolled",
    "vtoc_core": "Volume make_set scratch reserve ExtentList NoSpace make_from give_back grow trim",
    "set_core": "write_first append read_at tracks_used",
    "enq_core": "hold_all Want Held Blocked release",
    "prog_core": "ProgramLibrary Request Units start device_end finish",
    "disp_core": "take Taken dispose PassedList end_passed",
    "path_core": "ViewDomain analyse StartView Verdict Place RiskReport",
    "admit_core": "admit Shared Admission AssuredJob RiskyJob SpaceWait end_job",
    "init_core": "Initiator turn Reply",
    "sched_core": "Config System apply ApplyFault drive Driven close Event",
    "session_core": "run_session SessionEnd SessionFault",
    "law_core": "assured_run promises_are_kept",
    "mvt_main": "report",
}
DEFINES = r"\b(?:fn|struct|enum|trait|type) {}\b|^ +{}\b[ ,({{]"


def sources():
    """The text of each crate's code."""
    found = {}
    for path in glob.glob("crates/*/src/**/*.rt", recursive=True):
        with open(path, encoding="utf-8") as file:
            crate = path.split("/")[1]
            found[crate] = found.get(crate, "") + file.read()
    return found


def defines(text, name):
    return re.search(DEFINES.format(name, name), text, re.M)


def main():
    with open("docs/DECISIONS.md", encoding="utf-8") as file:
        items = re.findall(r"^- ((?:.|\n  )*)", file.read().split("asked for otherwise\n")[1], re.M)
    rows = [item.split(": ", 1) for item in items]
    told = {word for asked, _ in rows for word in re.findall(r"[A-Za-z_0-9]+", asked)}
    code = sources()
    differ = 0
    for crate, names in ASKED.items():
        for name in names.split():
            if name not in told and not defines(code.get(crate, ""), name):
                print(f"MISSING {crate}: {name}")
                differ = 1
    for _, here in rows:
        for crate, name in re.findall(r"`([a-z_0-9]+)::([A-Za-z_0-9]+)`", here):
            if not defines(code.get(crate, ""), name):
                print(f"NOT HERE {crate}::{name}")
                differ = 1
    if not differ:
        print(f"{sum(len(names.split()) for names in ASKED.values())} names are here or in the list")
    return differ


if __name__ == "__main__":
    sys.exit(main())

#!/usr/bin/env python3
"""Counts the places of src/ that could be in a plainer form, point by point, as docs/DESIGN-PASS.md has them.

    python3 tools/count_forms.py            the counts
    python3 tools/count_forms.py --list     each place, too
    python3 tools/count_forms.py --at C     the same at the commit C

A place is found by its text, so each is then looked at by eye; the page says what was made of it.
"""
import re
import subprocess
import sys

PATTERNS = [
    # 1: own enums of the shape of Option or Result, flags, numbers for kinds and refusals, None and Err handed on by hand
    ("1a an enum with a variant for nothing", r"\n    (?:Nothing|Nobody|Absent|Unknown|Missing),\n"),
    ("1b a refusal in an Option", r"-> Option<(?:\w*Fault|Cause)>"),
    ("1c success told by a bool beside what was done", r"fn (?:insert_rows|write_rows)[^{]*?-> (?:bool|Option<usize>)"),
    ("1d None handed on by hand", r"else \{\s*return None;\s*\}|\bNone => (?:return )?None\b"),
    ("1e Err handed on by hand", r"Err\((\w+)\) => (?:return )?Err\(\1\)|Some\((fault|cause)\) => (?:return )?Err\(\2\)|(?:else \{|None =>)\s*(?:return )?Err\(\w+::\w+\);?|Err\(fault\) => (?:return )?Err\(\w+ \{"),
    ("1f an Option mapped by a match", r"None => (?:0|View::Nothing|Ok\(None\)),|\bSome\((\w+)\) => \1[.,]|Ok\(n\) => Some\(n\)|Some\(\w+\) => (?:Some|Ok)\("),
    ("1g a kind told by a number", r"\n\s+\d+ => \w+_at\(|\[\n\s+[234],\n|&\[1, 1, S::|bytes\[0\] == 1"),
    ("1i nothing told by 0", r"_ => 0,"),
    ("1h answers of tests as numbers", r"\[u32; [234]\]|\bu32::MAX;"),
    # 2: twins
    ("2a readings counted at an entry", r"fn readings_(?:in|at)\b"),
    ("2b the summary of a part of a row", r"fn (?:row_summary|part_summary)\b"),
    ("2c one entry written if its place is there", r"fn (?:note|put)<?[^{]*?at: (?:u32|usize), (?:version|reply|x):"),
    ("2d counts of a raw run", r"fn counts\(heap"),
    ("2e the columns peak and place", r"fn top_text\b"),
    ("2f a node or record that no archive has written", r"fn free_(?:node|record)\b"),
    ("2g an element of a slice by its place", r"fn (?:at|record_at|entry)\b"),
    ("2h the same method of both stores", r"fn (?:size_of|one|refused)\(&self|fn held\(&self\) -> u32\s+ensures \{"),
    ("2i equality of a kind's values", r"fn same_(?:value|bits)\b"),
    ("2j a row named by place and length", r"fn (?:row_named|cut)\b<R"),
    ("2k numbers that look random", r"1_664_525"),
    # 3: loops that count an index
    ("3a for over a range of places", r"for \w+ in \w[\w.]*\.\.[^ {]+[^{]*\{"),
    ("3b while", r"\bwhile "),
    ("3c a place carried beside a for", r"\n\s+(?:end|at) (?:\+?= )[^;]*;"),
    # 4: equality, order, copying, conversion, printing
    ("4a own equality", r"fn (?:same|same_(?!path|row)\w+|alike|matches_count)\b"),
    ("4b bytes of numbers by division", r"/ 256 % 256|\* 256 \+"),
    ("4c text made by a function beside its type", r"fn (?:\w+_text|line|fault_line)\(heap"),
    ("4d own conversion or sum", r"fn (?:new\(value: u32\)|plus\(|from_bytes\()"),
    ("4e public enum or struct without comparison or Debug", r"#\[derive\(Clone, Copy\)\]\npub (?:enum|struct) \w+"),
    # 5: parameters that travel together, facts repeated
    ("5a nodes and used apart", r"nodes: &mut \[Node<Q>\],\s+used: u32"),
    ("5b block and length apart", r"block: u32,\s+length: u32,\s+\)|block: u32,\s+length: u32,\s+after: Option"),
    ("5c tables written out in a clause", r"\(record \{ nodes = [^}]*\}\)"),
    ("5d a kind's coding written out in a clause", r"record \{ code = [^}]*\}|coding (?:\w+\.)+coded (?:\w+\.)+wide (?:\w+\.)+bytes"),
    ("5e whose memory a table is", r"ensures (?:lender|same_slice)"),
    ("5f code and width twice", r"fn (?:kind_code|byte_width)\(\)"),
    ("5g a store's two ghost members, one after the other", r"BlockStore\.rows (?:\w+\.)*BlockStore\.refuses"),
    # 6: buffers with a length beside, arenas
    ("6a a buffer and how much of it is held", r"struct \w+(?:<[^>]*>)? \{[^}]*?\b(?:held|used|count|next): (?:u32|usize)|let mut filled"),
    ("6b a row as a place and a length", r"from: usize,\s+len: usize,"),
    # 7: a switch on which step to run
    ("7a a match on which call or step", r"match (?:call|step|bytes\[at\]|version\.edit) \{"),
]


def text_of(commit):
    names = subprocess.run(
        ["git", "ls-files", "crates"] if commit is None else ["git", "ls-tree", "-r", "--name-only", commit, "crates"],
        capture_output=True, text=True, check=True).stdout.split()
    for name in names:
        if "/src/" in name and name.endswith(".rt"):
            if commit is None:
                with open(name, encoding="utf-8") as file:
                    yield name, file.read()
            else:
                yield name, subprocess.run(["git", "show", f"{commit}:{name}"], capture_output=True, text=True, check=True).stdout


def main():
    arguments = sys.argv[1:]
    commit = arguments[arguments.index("--at") + 1] if "--at" in arguments else None
    files = list(text_of(commit))
    for title, pattern in PATTERNS:
        found = []
        for name, text in files:
            for match in re.finditer(pattern, text):
                line = text.count("\n", 0, match.start() + (1 if match.group(0).startswith("\n") else 0)) + 1
                found.append(f"    {name}:{line}: {match.group(0).strip().splitlines()[0][:90]}")
        print(f"{len(found):4}  {title}")
        if "--list" in arguments:
            print("\n".join(found))


main()

#!/usr/bin/env python3
"""The places of docs/DESIGN-PASS.md, point by point: python3 tools/places.py [-l] [COMMIT]
-l lists the lines. Without a commit the working tree is read. A pattern finds candidates; which of them are places,
and what became of them, the page says."""
import subprocess
import sys

PATTERNS = {
    '1 answers that say nothing': r'-> u8$',
    '1 numbers for kinds': r'const [A-Z]+_KIND|Err\([0-9]\)|[0-9] => Status|Status::[A-Z][a-z]+ => [0-9]',
    '1 numbers that stand for none': r'Err\(_\) => 0|return 0;|return Age\(0\)|else \{ 0 \}|return [a-z]+\.len\(\)|field\.len\(\)$|text\.len\(\)$',
    '1 own enums': r'^(pub(\(crate\))? )?enum ',
    '1 a flag or a number beside what is written': r'fn [a-z_]+.*&mut [^O].*-> (bool|usize)$',
    '2 blank values written out': r'const (NO_|NONE|EMPTY|BLANK)|fn (no_rate|no_share|empty)\(|let none =|fn block_memory',
    '2 one limit under several names': r'2_097_15[01]|const MOST[A-Z_]*: .*(1_?024|64);|fn most_pieces',
    '2 readers of all fields of one sort': r'fn (parse_rates|parse_shares|read_ages|read_words)',
    '2 the same call so many times': r'fn [a-z]+_times',
    '2 a refusal turned into an answer': r'Err\(refusal\) =>',
    '3 loops over a range of numbers': r'for [a-z_]+ in [0-9a-z]+\.\.',
    '3 loops with a condition': r'while ',
    '3 counts and sums by hand': r'\b(count|sum|score|oldest|next) (\+)?= .*;$',
    '4 numbers compared where their type has an order': r'\.0 (==|!=|<|>|<=|>=) |\.0\.(min|max)\(',
    '4 conversions by hand': r'fn (code|from_word|check|share_of|rate_of|unturned|numbers)\(',
    '4 printing by hand': r'fn (show_|layer_name|room_name|print_)[a-z_]*',
    '5 named': r'ensures named',
    '5 room': r'requires room',
    '5 table': r'requires table',
    '5 light': r'requires light',
    '5 few, long, within, fronts, count': r'requires (few|long|within|fronts|count|even|wide|work|steps|low|reach|inside) ',
    '5 refused': r'ensures refused',
    '6 a buffer with a length beside it': r'^ *(pub(\(crate\))? )?(height|used|count): usize,|let count = gather',
    '6 slices that lie side by side': r'^ *(pub )?(scores|releases|blocks): &',
    '7 a switch on a kind': r'match (side|shape|confidence|\*?self|what|room|call|change|request)\b',
}


def lines(pattern, commit):
    command = ['git', 'grep', '-nP', '-e', pattern] + ([commit] if commit else []) + ['--', 'crates/*/src/*.rt']
    return subprocess.run(command, capture_output=True, text=True).stdout.splitlines()


def proofs(commit):
    if commit:
        names = subprocess.run(['git', 'ls-tree', '-r', '--name-only', commit], capture_output=True, text=True).stdout.split()
    else:
        names = subprocess.run(['git', 'ls-files'], capture_output=True, text=True).stdout.split()
    answers = [n for n in names if n.endswith(('Answers.antt', 'Invariants.antt', 'Proof.antt'))]
    total = 0
    for name in answers:
        text = subprocess.run(['git', 'show', f'{commit}:{name}'], capture_output=True, text=True).stdout if commit else open(name).read()
        total += text.count('\n')
    return len(answers), total


def main():
    arguments = sys.argv[1:]
    listed = '-l' in arguments
    commit = next((a for a in arguments if a != '-l'), None)
    for name, pattern in PATTERNS.items():
        found = lines(pattern, commit)
        print(f'{len(found):4} {name}')
        if listed:
            for line in found:
                print('       ', line)
    files, total = proofs(commit)
    print(f'{files:4} 8 files of answers and invariants, {total} lines')


main()

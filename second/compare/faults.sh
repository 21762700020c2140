#!/bin/sh
# Sees that the comparison can fail: builds the second program with one fault
# at a time, hands it in as "ours", and shows the last line of each run.
# Use, from the folder that holds src and compare:  sh compare/faults.sh COMPARE SECOND [SEED] [WORD]
# With a word, only the faults whose name has it.
set -eu
compare=$1
second=$2
seed=${3:-1}
word=${4:-}
work=$(mktemp -d)
missed=0

# fault NAME FILE CHANGE: one run with the file changed by the sed command.
fault() {
    name=$1 file=$2 change=$3
    case $name in *"$word"*) ;; *) return;; esac
    rm -rf "$work/src"
    cp -r src "$work/src"
    sed "$change" "src/program/$file" > "$work/src/program/$file"
    if cmp -s "src/program/$file" "$work/src/program/$file"; then
        echo "$name: the change found no place"; missed=1; return
    fi
    # With one way of finding the stages for all cases, a fault in it shows.
    case $file in by_joins.rs) sed -i 's/if a <= FEW_ASSUMPTIONS {/if a > 99 {/' "$work/src/program/stages.rs";; esac
    rustc -O --edition 2021 -A warnings -o "$work/faulty" "$work/src/main.rs"
    printf '#!/bin/sh\nexec %s/faulty list\n' "$work" > "$work/list.sh"
    printf '#!/bin/sh\nexec %s/faulty replay\n' "$work" > "$work/replay.sh"
    printf '#!/bin/sh\nexec %s/faulty rewrite\n' "$work" > "$work/rewrite.sh"
    chmod +x "$work/list.sh" "$work/replay.sh" "$work/rewrite.sh"
    if "$compare" "$work/list.sh" "$work/replay.sh" "$second" "$seed" "$work/rewrite.sh" > "$work/out"; then
        echo "$name: NOT SEEN"; missed=1
    else
        echo "$name: $(tail -n 1 "$work/out")"
        grep '^difference\|^group' "$work/out" | cut -c1-70 | sort | uniq -c | sed 's/^/    /'
    fi
}

fault "listing order by number alone" rule.rs 's/(set.count_ones(), \*set)/*set/'
fault "nogoods not struck at a later stage" by_joins.rs \
    's/let label = self.next_list(n, &next\[0\]);/let label = self.next_list(n, if self.stage == 0 { \&next[0] } else { \&[] });/'
fault "label limit 11" rule.rs 's/MOST_MEMBERS: usize = 12/MOST_MEMBERS: usize = 11/'
fault "label limit 13" rule.rs 's/MOST_MEMBERS: usize = 12/MOST_MEMBERS: usize = 13/'
fault "nogood limit 31" rule.rs 's/MOST_NOGOODS: usize = 32/MOST_NOGOODS: usize = 31/'
fault "nogood limit 33" rule.rs 's/MOST_NOGOODS: usize = 32/MOST_NOGOODS: usize = 33/'
fault "struck with the nogoods of the stage before" by_joins.rs \
    's/self.next_list(n, &next\[0\])/self.next_list(n, \&self.lists[0])/'
fault "old members not struck" by_joins.rs \
    's/if !has_one_of(set, nogoods) {/if true {/'
fault "8 before 9 at one stage" by_joins.rs \
    's/if nogoods.len() > MOST_NOGOODS {/if nogoods.len() > MOST_NOGOODS \&\& (1..self.lists.len()).all(|n| self.next_list(n, \&nogoods).len() <= MOST_MEMBERS) {/'
fault "8 names the highest" by_joins.rs \
    's/return Err(Over::Label(n as u32));/return Err(Over::Label((n..self.lists.len()).filter(|\&k| self.next_list(k, \&next[0]).len() > MOST_MEMBERS).last().unwrap() as u32));/'
fault "struck once, when the nogood is found" by_joins.rs \
    's/^        let mut joins = vec!\[0\];/        let new: Vec<Set> = nogoods.iter().copied().filter(|x| !self.lists[0].contains(x)).collect(); let nogoods = \&new[..]; let mut joins = vec![0];/'
fault "a new member compared with older ones only one way" by_joins.rs \
    's/self.sets.retain(|&other| !inside(set, other));//'
fault "room for 40 half-made joins" by_joins.rs \
    's/^            joins = longer.sets;/            joins = longer.sets; joins.truncate(40);/'
fault "refused for more than 40 half-made joins" by_joins.rs \
    's/^            joins = longer.sets;/            joins = longer.sets; if joins.len() > 40 { list.sets = joins; return; }/'
fault "room for 33 in a half-built list" by_joins.rs \
    's/^                list.put(join);/                if list.sets.len() < 33 { list.put(join); }/;s/rules.sort_by_key.*//'
fault "depth at least 1" stages.rs 's/if next == lists {/if next == lists \&\& depth > 0 {/'
fault "depth from what follows, nogoods or not" by_subsets.rs \
    's/^        Ok(lists)/        lists.push(vec![self.follows.iter().map(|bits| count(bits) as u32).sum()]); Ok(lists)/'
fault "7 before 1" store.rs \
    's/if self.held.contains(&rule) {/if self.held.len() < MOST_HELD \&\& self.held.contains(\&rule) {/'
fault "5 before 4" store.rs \
    's/refuse_if(consequent > last/refuse_if(supports.contains(\&0), 5)?; refuse_if(consequent > last/'
fault "a refused load empties the store" script.rs \
    's/^        Err(Fault {/        Err(Fault { refusal: Refusal { number: 13, .. }, .. }) if { *store = Store::open(0, 0).unwrap(); false } => unreachable!(),\n        Err(Fault {/'
fault "4,096 bytes refused" listing.rs 's/input.len() > MOST_BYTES/input.len() >= MOST_BYTES/'
fault "record of 13 one too high" case_file.rs 's/return Err(at_record(count)(Refusal::plain(13)));/return Err(at_record(count + 1)(Refusal::plain(13)));/'
fault "withdraw: 18 before 4 and 5" store.rs \
    '/pub fn withdraw/,/^    }/s/check_numbers(/refuse_if(!self.held.contains(\&Rule::new(consequent, supports)), 18)?; check_numbers(/'
fault "withdraw: a refusal by stage takes the rule out" store.rs \
    '/pub fn withdraw/,/^    }/s/\*self = /self.held = smaller.clone(); *self = /'
fault "withdraw: the lists stay as they were" store.rs \
    '/pub fn withdraw/,/^    }/s/\*self = Store::of_rules(self.a, self.m, smaller)?;/Store::of_rules(self.a, self.m, smaller.clone())?; self.held = smaller;/'
fault "depth: no stage above 128" stages.rs 's/if next == lists {/if next == lists || depth == 128 {/'
fault "depth: a stage 129 that differs from 128 is refused" stages.rs \
    's/^        depth += 1;/        depth += 1; if depth == 129 { return Err(Refusal::plain(10)); }/'
fault "own reason: only where it stands alone" store.rs \
    's/refuse_if(supports.contains(&consequent), 17)/refuse_if(!supports.is_empty() \&\& supports.iter().all(|\&n| n == consequent), 17)/'
fault "own reason: 17 before 5" store.rs \
    's/^    refuse_if(supports.contains(&0), 5)?;/    refuse_if(supports.contains(\&consequent), 17)?; refuse_if(supports.contains(\&0), 5)?;/'
fault "own reason: in a file only after the last record" case_file.rs \
    's/check_numbers(last, consequent, &supports)?;/check_numbers(last, consequent, \&supports).or_else(|x| if x.number == 17 { Ok(()) } else { Err(x) })?;/;s/^    if file.place < bytes.len() {/    if held.iter().any(|rule| rule.supports.contains(\&rule.consequent)) { return Err(at_record(count)(Refusal::plain(17))); }\n    if file.place < bytes.len() {/'
fault "reason: the last member within" store.rs \
    's/list.iter().copied().find(/list.iter().rev().copied().find(/'
fault "reason: the smallest number within" store.rs \
    's/list.iter().copied().find(|&member| inside(member, set))/list.iter().copied().filter(|\&member| inside(member, set)).min()/'
fault "reason: an inconsistent one names the set asked" store.rs \
    's/return Answer::Inconsistent(nogood);/return Answer::Inconsistent(if nogood == 0 { 0 } else { set });/'
fault "contradicted: judged at the depth" store.rs \
    's/n != 0 \&\& self.list(n).is_empty() \&\& self.from_all\[n as usize\]/n != 0 \&\& self.list(n).is_empty() \&\& self.from_all_at_depth()[n as usize]/'
fault "contradicted: an assumption stays unsupported" store.rs \
    's/n != 0 \&\& self.list(n).is_empty()/n > self.a \&\& self.list(n).is_empty()/'
fault "contradicted: 3 also where the label is not empty" store.rs \
    's/Answer::Unsupported if self.is_contradicted(n) => 3/Answer::Unsupported if n != 0 \&\& self.from_all[n as usize] => 3/'
fault "contradicted: whatever some rule names" store.rs \
    's/n != 0 \&\& self.list(n).is_empty() \&\& self.from_all\[n as usize\]/n != 0 \&\& self.list(n).is_empty() \&\& (n <= self.a || self.held.iter().any(|rule| rule.consequent == n))/'
fault "season: ends at the first refusal" store.rs \
    '/pub fn season/,/^    }/s/Err(refusal) => refusal.number,/Err(refusal) => { numbers.push(refusal.number); numbers.resize(items.len(), 0); return numbers; }/'
fault "season: an item held already is told as done" store.rs \
    '/pub fn season/,/^    }/s/Ok(Added::AlreadyHeld) => 1,/Ok(Added::AlreadyHeld) => 0,/'
fault "season: room for 255 items" script.rs 's/MOST_ITEMS: usize = 256/MOST_ITEMS: usize = 255/'
fault "season: the list is emptied by it" script.rs 's/return season(store, line, list)/return { let reply = season(store, line, list); list.clear(); reply }/'
fault "plain: nothing follows after falsity" plain.rs 's/if next == \*last {/if next == *last || last[0] {/'
fault "plain: one line more" plain.rs 's/^                return stages;/                stages.push(next); return stages;/'
fault "plain: a consequent too large before the faults of earlier items" plain.rs \
    's/^        check_counts(a, m)?;/        check_counts(a, m)?; if items.iter().any(|item| item.0 > a + m) { return Err(Refusal::plain(4)); }/'
fault "plain: falsity supported" plain.rs 's/if follows\[0\] {/if follows[0] \&\& n > 0 {/'
fault "written: 128 in one byte" writing.rs 's/if n < 128 {/if n <= 128 {/'
fault "written: by supports before their number" rule.rs \
    's/(self.consequent, self.supports.len(), &self.supports)/(self.consequent, 0, \&self.supports)/;s/(other.consequent, other.supports.len(), &other.supports)/(other.consequent, 0, \&other.supports)/'
fault "written: a refused file is handed back" writing.rs \
    's/listing::load(input).map(|store| file_of(&store))/listing::load(input).map(|store| file_of(\&store)).or_else(|fault| if fault.refusal.number == 13 { Ok(input.to_vec()) } else { Err(fault) })/'
rm -rf "$work"
if [ $missed = 0 ]; then echo "all faults seen"; else echo "faults.sh: FAILED"; exit 1; fi

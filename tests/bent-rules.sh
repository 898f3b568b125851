# The rules bent, one at a time, as the source papers and hasty programs bend them. Of the bent rules it is proved that they do not meet
# demand 3: at the book of one trial (crate trials) a request is accepted although the changed book breaks a rule, or refused although
# it breaks none. Of changes that let a person act, or stop them, it is proved that they do not meet M-101: after the trial's request,
# which is not of kind 11, person 0 does not act in what they acted in. Of rules by which the order of clicking matters, or by which what is
# taken back leaves a trace, it is proved that they do not meet M-102, at the book and the list of one trial (crate list_trials). Of rules
# that name something else it is proved that they do not tell what the table of M-104 or M-105 does (crate examples): no demand pins what is
# named.
# Of rules that are only written another way it is proved that the trial still holds. The copy has the definitions and the law that a trial
# is the statement at its book, with the few on tests and small books that it cites, and none on the rules: those would be refused for the
# wording alone.
# Run by .ci/run in a shell of its own, or called alone.

type holds >/dev/null 2>&1 || . "$(dirname "${BASH_SOURCE[0]}")/alone"

bent=$(mktemp -d)
bent_kit=$(dirname "$(rt doc)")
bent_count=0

# What is to be proved at the trial of demand 3 or of M-101 ..
bent_claim() { # CLAIM FAMILY TRIAL
    cat <<END
use mathlib.Core.Path.{sym}
use mathlib.Core.Bool.{true≢false}
use native.Mathlib.Omega.{arith}
use lib.Dec.{T, eqb}
use borrow.Author.Tests.{eq-eqb}
use Rattle.rules.specs.Computed.{computed}
use Rattle.rules.specs.Numbers.{words_after}
use Rattle.rules.specs.Small.{book_of}
use Rattle.demands.specs.Demand3.{ChecksExact, kept}
use Rattle.demands.specs.ActiveRoles.{OnlyActivate}
use Rattle.trials.specs.Trial.{fair, agrees, exact}
use Rattle.trials.specs.$2.{$3}
use Rattle.trials.proofs.Instances.{demand_3_tried}

END
    case $1 in
    refuted) printf '%s\n' 'pub refuted : ChecksExact → ⊥' 'unfolding computed fair agrees exact' "refuted checks = demand_3_tried checks $3" ;;
    switched)
        printf '%s\n' 'pub refuted : OnlyActivate → ⊥' 'unfolding computed words_after' \
            "refuted only = true≢false (sym (eq-eqb _ _ (only (book_of $3.words) $3.request (λ e. omega arith) 452 (omega arith) (omega arith))))"
        ;;
    stays)
        printf '%s\n' "pub stays : T (eqb (kept (book_of $3.words) $3.request 452) (book_of $3.words 452))" \
            'unfolding computed words_after' 'stays = tt'
        ;;
    stands) printf '%s\n' "pub stands : T (exact $3)" 'unfolding computed fair agrees exact' 'stands = tt' ;;
    esac
}

# .. and at that of M-102.
bent_list_claim() { # CLAIM FAMILY TRIAL
    cat <<END
use lib.Dec.{T}
use Rattle.rules.specs.Computed.{computed}
use Rattle.rules.specs.Numbers.{words_after}
use Rattle.clicks.specs.Clicks.{OrderFree, Restored}
use Rattle.list_trials.specs.ListTrial.{list_fair, orderly, traceless}
use Rattle.list_trials.specs.$2.{$3}
use Rattle.list_trials.proofs.Instances.{order_free_tried, restored_tried}

END
    case $1 in
    disordered) printf '%s\n' 'pub refuted : OrderFree → ⊥' 'unfolding computed words_after list_fair orderly' "refuted free = order_free_tried free $3" ;;
    traced) printf '%s\n' 'pub refuted : Restored → ⊥' 'unfolding computed words_after traceless' "refuted back = restored_tried back $3" ;;
    ordered) printf '%s\n' "pub stands : T (orderly $3)" 'unfolding computed words_after list_fair orderly' 'stands = tt' ;;
    untraced) printf '%s\n' "pub stands : T (traceless $3)" 'unfolding computed words_after traceless' 'stands = tt' ;;
    esac
}

# .. and of a table of what is named.
bent_table_claim() { # CLAIM FAMILY TABLE
    cat <<END
use mathlib.Core.Bool.{not}
use lib.Dec.{T}
use Rattle.rules.specs.Computed.{computed}
use Rattle.examples.specs.Examples.{all_go}
use Rattle.examples.specs.$2.{$3}

END
    case $1 in
    mistold) printf '%s\n' "pub refuted : T (not (all_go $3))" 'unfolding computed' 'refuted = tt' ;;
    told) printf '%s\n' "pub stands : T (all_go $3)" 'unfolding computed' 'stands = tt' ;;
    esac
}

# The definitions that the claim speaks of, with NEW for OLD in one file of the rules, and the claim.
bent_copy() { # ROOM CLAIM FILE OLD NEW FAMILY TRIAL
    case $2 in
    disordered | traced | ordered | untraced) below='sets chains rules demands clicks' tried=list_trials claim=bent_list_claim gone='Tried Needed' ;;
    mistold | told) below='sets chains rules' tried=examples claim=bent_table_claim gone='Hold OnWords' ;;
    *) below='sets chains rules demands' tried=trials claim=bent_claim gone=Tried ;;
    esac
    for crate in $below "$tried"; do
        mkdir -p "$1/$crate/src"
        : >"$1/$crate/src/lib.rt"
        cp -R "crates/$crate/specs" "$1/$crate/specs"
    done
    for file in $gone; do
        sed -i "/^pub mod $file\$/d" "$1/$tried/specs/Lib.antt"
        rm "$1/$tried/specs/$file.antt"
    done
    for file in sets/Logic rules/SaidLaws rules/SmallLaws clicks/TestLaws "$tried/Instances"; do
        [ -d "$1/${file%/*}" ] && [ -f "crates/${file%/*}/proofs/${file#*/}.antt" ] || continue
        mkdir -p "$1/${file%/*}/proofs"
        cp "crates/${file%/*}/proofs/${file#*/}.antt" "$1/${file%/*}/proofs/"
        echo "pub mod ${file#*/}" >>"$1/${file%/*}/proofs/Lib.antt"
    done
    mkdir -p "$1/$tried/proofs"
    "$claim" "$2" "$6" "$7" >"$1/$tried/proofs/Claim.antt"
    echo 'pub mod Claim' >>"$1/$tried/proofs/Lib.antt"
    text=$(cat "$1/rules/specs/$3")
    rest=${text/"$4"/}
    [ "$text" != "$rest" ] || { echo "crates/rules/specs/$3 does not have the text: $4"; return 1; }
    [ "$rest" = "${rest/"$4"/}" ] || { echo "crates/rules/specs/$3 has the text more than once: $4"; return 1; }
    # A bend may say "or", and name what is said of masks.
    printf '%s\n' 'use mathlib.Core.Bool.{◌||◌}' 'use Rattle.sets.specs.Mask as masks' "${text/"$4"/"$5"}" >"$1/rules/specs/$3"
}

# Says that the claim is proved, or what the prover says first. The prover is called as rt calls it; rt itself takes libraries from
# crates.txt alone, built, and has none for one run.
bent_verdict() { # ROOM CLAIM FILE OLD NEW FAMILY TRIAL
    bent_copy "$@" || return
    libraries=()
    for crate in $below; do
        libraries+=(--lib "$crate=$1/$crate/src/lib.rt")
    done
    (cd "$1/$tried" && "$bent_kit/bin/rattle" check --crate-name "$tried" src/lib.rt "${libraries[@]}" --jobs 1 \
        --extern "std=$bent_kit/rlibs/std.rlib" --extern "core=$bent_kit/rlibs/core.rlib" -L "dependency=$bent_kit/rlibs" \
        --antt-project "$bent_kit/rattle/logic/antt-project.json" --logic-built "$bent_kit/logic_built") >"$1/log" 2>&1
    if grep -q '^logic=proved' "$1/log"; then echo proved; else grep -m 1 error "$1/log" | cut -c 1-400; fi
}

# Starts one of them; as many run at a time as there are processors.
bent_start() { # CLAIM SENTENCE FILE OLD NEW FAMILY TRIAL
    bent_count=$((bent_count + 1))
    printf '%s\n' "$1" "$2" "$7" >"$bent/$bent_count.asked"
    [ "$(jobs -rp | wc -l)" -lt "${RT_JOBS:-$(nproc)}" ] || wait -n
    (bent_verdict "$bent/$bent_count" "$1" "${@:3}" >"$bent/$bent_count.told" && rm -rf "${bent:?}/$bent_count") &
}

bend() { bent_start refuted "$@"; }     # SENTENCE FILE OLD NEW FAMILY TRIAL
switch() { bent_start switched "$@"; } # SENTENCE FILE OLD NEW FAMILY TRIAL
stays() { bent_start stays "$@"; }     # SENTENCE FILE OLD NEW FAMILY TRIAL
same() { bent_start stands "$@"; }     # SENTENCE FILE OLD NEW FAMILY TRIAL
disorder() { bent_start disordered "$@"; } # SENTENCE FILE OLD NEW FAMILY TRIAL
trace() { bent_start traced "$@"; }        # SENTENCE FILE OLD NEW FAMILY TRIAL
order() { bent_start ordered "$@"; }       # SENTENCE FILE OLD NEW FAMILY TRIAL
no_trace() { bent_start untraced "$@"; }   # SENTENCE FILE OLD NEW FAMILY TRIAL

mistell() { bent_start mistold "$@" "${table[@]}"; } # SENTENCE FILE OLD NEW, of the table that is set
tell() { bent_start told "$@" "${table[@]}"; }       # SENTENCE FILE OLD NEW, of the table that is set

bent_shown() { # TOLD
    [ "$1" = proved ] || { echo "not proved: $1"; return 1; }
}

# ---- Checks too weak: a change is let through that breaks a rule

bend "no conflict is ever given" Numbers.antt 'in f d a b rest' 'in rest' Pairs chained_sme
bend "20 left out of kind 6" Numbers.antt \
    'rb_conflicts = self_constraint ∷' 'rb_conflicts =' Pairs own_binding
bend "21 left out of kind 4" Numbers.antt \
    'self_constraint ∷ already_dme ∷ one_subject_group' 'self_constraint ∷ one_subject_group' Pairs also_dme
bend "22 left out of kind 5" Numbers.antt \
    'self_constraint ∷ already_sme ∷ one_subject_group' 'self_constraint ∷ one_subject_group' Pairs also_sme
bend "23 by the row, without chains" Numbers.antt 'bit (subject_group d a) b' 'bit (d.row SB a) b' Pairs bound_subjects
bend "24 left out of kind 4" Numbers.antt '∷ one_role_group ∷' '∷' Pairs bound_roles
bend "25 left out of kind 4" Numbers.antt '∷ role_owns_both ∷' '∷' Pairs role_owns
bend "26 left out of kind 4" Numbers.antt '∷ subject_owns_both ∷' '∷' Pairs subject_owns
bend "27 as 002 prints it, what a and b themselves exclude against the other's group" Numbers.antt \
    'between (d.row SME) (role_group d a) (role_group d b)' \
    '(λ u v. between (d.row SME) (2 ^ a) (role_group d b) u v || between (d.row SME) (role_group d a) (2 ^ b) u v)' Pairs chained_sme
bend "27 between the two tasks themselves" Numbers.antt \
    '(d.row SME) (role_group d a) (role_group d b)' '(d.row SME) (2 ^ a) (2 ^ b)' Pairs chained_roles
bend "28 between the two tasks themselves" Numbers.antt \
    '(d.row DME) (subject_group d a) (subject_group d b)' '(d.row DME) (2 ^ a) (2 ^ b)' Pairs chained_dme
bend "29 left out of kind 9" Numbers.antt 'self_inheritance ∷ cycle' 'cycle' Staff own_junior
bend "30 by the row, without chains" Numbers.antt 'bit (reach d a) b' 'bit (d.row juniors a) b' Staff wide_cycle
bend "31 without seniors" Numbers.antt '(λ o. owns_role d (role o) b)' '(eqb b)' Staff senior_gains
bend "31 with the tasks of the junior alone, and not of those below it" Numbers.antt \
    'gained_role d a = owned_tasks d (role a)' 'gained_role d a = d.row tasks_of a' Staff junior_brings
bend "32 of those who have the role itself" Numbers.antt '(λ o. owns_role d (subject d o) b)' '(λ o. bit (subject d o) b)' Staff subject_gains
bend "32 left out of kind 9" Numbers.antt 'task_assignment gained_role ∷ role_assignment gained_role' 'task_assignment gained_role' Staff subject_reaches
bend "32 left out of kind 10" Numbers.antt 'role_conflicts = own_role_assignment ∷ []' 'role_conflicts = []' Staff own_role
bend "33 left out of kind 13" Numbers.antt 'held_sme c ∷ held_dme c ∷ []' 'held_dme c ∷ []' Orders held_sme
bend "33 and 34 within the hand itself, as if nothing were held yet" Numbers.antt \
    'between (d.row n) (held_by d p c) hand' 'between (d.row n) hand hand' Orders held_sme
bend "33 inside order b alone, as document 01 had it" Numbers.antt \
    'given_lowest_pair 33 (is_open d) (holds SME d c (subject_hand d a b))' 'given_pair 33 (holds SME d c (subject_hand d a b) b)' Orders held_elsewhere
bend "34 left out of kind 13" Numbers.antt 'held_sme c ∷ held_dme c ∷ []' 'held_sme c ∷ []' Orders held_dme
bend "34 of the task alone, without its subject group" Numbers.antt \
    'holds DME d c (subject_hand d a b) b' 'holds DME d c (2 ^ a) b' Orders held_dme
bend "a role-bound task of a bound task that gets no role" Requests.antt \
    'bit_and (role_group d a) (d.row orders b)' 'bit_and (subject_group d a) (d.row orders b)' Orders bound_hands
bend "a closed order that keeps its cells" Requests.antt \
    'cell = λ q t. elim (eqb q p) [ true ↦ 0 | false ↦ d.cell q t ]' 'cell = d.cell' Orders closed_order
bend "one bit of a pair taken back and not the other" Requests.antt \
    'take_pair rows a b = take_from (take_from rows b a) a b' 'take_pair rows a b = take_from rows a b' PairsBack dme_back
bend "a pair of one table taken back in the next" Requests.antt \
    'set_table d n (take_pair (d.row n) a b)' 'set_table d (suc n) (take_pair (d.row n) a b)' PairsBack sme_back
bend "4 where a task need not be defined" Requests.antt \
    'fits d a_task v = ltb v 64 && bit (tasks d) v' 'fits d a_task v = ltb v 64' Guarded undefined_task
bend "7 left out of kinds 4 to 7" Numbers.antt '(say 5) (open_refusal d)' '(say 5) accepted' Guarded while_open
bend "8 left out of kind 13" Numbers.antt '(given (not (active_owned d c)) (say 8)' '(given false (say 8)' Guarded in_no_role

# ---- A word of the trade, on which a check and a rule both stand: the rule no longer finds what the check still does

bend "the role group without the mixed chain" Trade.antt 'group (mixed d SB RB) t' 'group (d.row RB) t' Pairs mixed_chain

# ---- Checks too strong: a change is refused that breaks no rule

bend "everything is refused" Numbers.antt 'first_of [] d a b = accepted' 'first_of [] d a b = say 20' Orders opened_order
bend "20 whatever the tasks are" Numbers.antt 'given (eqb a b) (say 20' 'given true (say 20' Pairs free_sme
bend "25 and 26 of an owner of one of the two" Numbers.antt 'bit mine a && bit mine b' 'bit mine a || bit mine b' Pairs free_sme
bend "24 asked of kind 5 too" Numbers.antt \
    'self_constraint ∷ already_sme ∷ one_subject_group ∷ []' 'self_constraint ∷ already_sme ∷ one_role_group ∷ []' Pairs free_dme
bend "21 asked of kind 6 too" Numbers.antt \
    'rb_conflicts = self_constraint ∷ already_sme' 'rb_conflicts = self_constraint ∷ already_dme' Pairs free_rb
bend "28 of all that is DME to a's group" Numbers.antt \
    '(d.row DME) (subject_group d a) (subject_group d b)' '(d.row DME) (subject_group d a) (2 ^ 64 - 1)' Pairs free_sb
bend "23 asked of kinds 18 to 21 too" Numbers.antt \
    'conflicts (unrelate n) c = []' 'conflicts (unrelate n) c = one_subject_group ∷ []' PairsBack sb_back
bend "31 of every role" Numbers.antt '(λ o. owns_role d (role o) b)' '(λ o. true)' Staff free_task
bend "30 turned round" Numbers.antt 'bit (reach d a) b' 'bit (reach d b) a' Staff free_junior
bend "32 of tasks that are DME" Numbers.antt 'clashing (d.row SME) gain' 'clashing (d.row DME) gain' Staff free_role
bend "34 of tasks outside the order" Numbers.antt \
    'holds DME d c (subject_hand d a b) b' 'holds DME d c (subject_group d a) b' Orders outside_order
bend "34 of every open order" Numbers.antt \
    'given_pair_in 34 (holds DME d c (subject_hand d a b) b) b' 'given_lowest_pair 34 (is_open d) (holds DME d c (subject_hand d a b))' Orders dme_elsewhere
bend "33 and 34 of what anybody holds" Numbers.antt \
    '(d.row n) (held_by d p c)' '(d.row n) (picked (λ t. not (eqb (subject_in (d.cell p t)) 0)) (d.row orders p))' Orders others_hand

# ---- The audit's rules

bend "rule 1 left out" Audit.antt '∷ of_four not_own' '∷ (λ d x. true)' Pairs own_binding
bend "rule 2 left out" Audit.antt '∷ of_four symmetric' '∷ (λ d x. true)' Guarded one_sided
bend "rule 3 left out" Audit.antt '(λ d. apart (d.row SME) (d.row DME))' '(λ d x. true)' Pairs also_sme
bend "rule 4 in one subject group" Audit.antt '(d.row SME) (role_group d)' '(d.row SME) (subject_group d)' Pairs bound_roles
bend "rule 5 in one role group" Audit.antt '(d.row DME) (subject_group d)' '(d.row DME) (role_group d)' Pairs free_dme
bend "rule 6 left out" Audit.antt '(λ d. not_own (reach d))' '(λ d x. true)' Staff wide_cycle
bend "rule 7 of subjects" Audit.antt 'owner_free d role' 'owner_free d (subject d)' Pairs role_owns
bend "rule 8 of roles" Audit.antt 'owner_free d (subject d)' 'owner_free d role' Pairs subject_owns
bend "rule 9 of DME pairs alone" Audit.antt \
    'hands_apart d s = pair_free (d.row SME) (held_anywhere d s) && all' 'hands_apart d s = all' Orders held_sme
bend "rule 9 inside one order for SME too, as document 01 had it" Audit.antt \
    'pair_free (d.row SME) (held_anywhere d s)' 'all 64 (λ p. implies (is_open d p) (pair_free (d.row SME) (held_by d p s)))' Orders held_elsewhere
bend "rule 9 over all orders for DME too" Audit.antt \
    'all 64 (λ p. implies (is_open d p) (pair_free (d.row DME) (held_by d p s)))' 'pair_free (d.row DME) (held_anywhere d s)' Orders dme_elsewhere
bend "rule 10 with one S in a role group" Audit.antt 'implies (bit by_subject v)' 'implies (bit by_role v)' Orders bound_hands

# ---- Who acts in what, which kind 11 alone says (M-101)

switched_on='change d (assign n) a b c =
        let added = set_table d n (add_to (d.row n) b a) in
        elim (eqb n roles_of && eqb (d.row active b) 0) [ true ↦ set_active added a b | false ↦ added ]'
switch "a role made active for a person who acts in none, as document 01 had it" Requests.antt \
    'change d (assign n) a b c = set_table d n (add_to (d.row n) b a)' "$switched_on" Staff free_role
switch "nobody acting in a role that is taken back" Requests.antt \
    'change d (take_back n) a b c = set_table d n (take_from (d.row n) b a)' \
    'change d (take_back n) a b c =
        let less = set_table d n (take_from (d.row n) b a) in
        elim (eqb n roles_of && eqb (d.row active b) (suc a)) [ true ↦ set_table less active (set_row (d.row active) b 0) | false ↦ less ]' \
    Staff role_back

stays "the bit of kinds 8 to 10 set twice" Requests.antt \
    'set_table d n (add_to (d.row n) b a)' 'set_table d n (add_to (add_to (d.row n) b a) b a)' Staff free_role

# ---- The order of clicking, and what is taken back (M-102)

disorder "a role made active for a person who acts in none" Requests.antt \
    'change d (assign n) a b c = set_table d n (add_to (d.row n) b a)' "$switched_on" Lists two_roles
disorder "a pair set in one direction only" Requests.antt \
    'add_pair rows a b = add_to (add_to rows a b) b a' 'add_pair rows a b = add_to rows a b' Lists chained_pairs
disorder "22 left out of kind 5, and 21 asked of kind 4 all the same" Numbers.antt \
    'self_constraint ∷ already_sme ∷ one_subject_group' 'self_constraint ∷ one_subject_group' Lists both_exclusions
trace "a role made active for a person who acts in none" Requests.antt \
    'change d (assign n) a b c = set_table d n (add_to (d.row n) b a)' "$switched_on" Lists two_roles
trace "one bit of a pair taken back and not the other" Requests.antt \
    'take_pair rows a b = take_from (take_from rows b a) a b' 'take_pair rows a b = take_from rows a b' Lists two_pairs

order "the bit of kinds 8 to 10 set twice" Requests.antt \
    'set_table d n (add_to (d.row n) b a)' 'set_table d n (add_to (add_to (d.row n) b a) b a)' Lists two_roles
order "the two bits of a pair set in the other order" Requests.antt \
    'add_pair rows a b = add_to (add_to rows a b) b a' 'add_pair rows a b = add_to (add_to rows b a) a b' Lists two_pairs
no_trace "the two bits of a pair taken back in the other order" Requests.antt \
    'take_pair rows a b = take_from (take_from rows b a) a b' 'take_pair rows a b = take_from (take_from rows a b) b a' Lists two_pairs

# ---- What 33 and 34 name (M-104)

table=(SeveralOrders several_orders)
mistell "33 that names no order" Numbers.antt '(say_pair n (f p) p)' '(say_pair n (f p) 0)'
mistell "33 that names the highest order" Numbers.antt \
    'let p = lowest (has_pair asked f) in' \
    'let q = lowest (λ p. has_pair asked f (63 - p)) in
        let p : ℕ = elim (ltb q 64) [ true ↦ 63 - q | false ↦ 64 ] in'
mistell "33 with x the lowest that is held in any order" Numbers.antt \
    'held_sme c d a b = given_lowest_pair 33 (is_open d) (holds SME d c (subject_hand d a b))' \
    'held_sme c d a b rest =
        let p = lowest (has_pair (is_open d) (holds SME d c (subject_hand d a b))) in
        let held = masks.joined 64 (λ p. only (is_open d p) (held_by d p c)) (2 ^ 64 - 1) in
        given (ltb p 64) (say_pair 33 (between (d.row SME) held (subject_hand d a b)) p) rest'
mistell "33 and 34 with the highest partner" Numbers.antt \
    'say_xyz n i (lowest (f i)) z' 'say_xyz n i (63 - lowest (λ v. f i (63 - v))) z'
mistell "33 and 34 with the lowest partner of anything that is held" Numbers.antt \
    'say_xyz n i (lowest (f i)) z' 'say_xyz n i (lowest (λ v. ltb (lowest (λ u. f u v)) 64)) z'
mistell "33 and 34 of a partner in whose row the held task is" Numbers.antt \
    'between (d.row n) (held_by d p c) hand' '(λ u v. between (d.row n) hand (held_by d p c) v u)'
mistell "33 after 34" Numbers.antt 'held_sme c ∷ held_dme c ∷ []' 'held_dme c ∷ held_sme c ∷ []'
mistell "34 that names no order" Numbers.antt \
    'given_pair_in 34 (holds DME d c (subject_hand d a b) b) b' 'given_pair_in 34 (holds DME d c (subject_hand d a b) b) 0'
tell "33 with a test that adds nothing" Numbers.antt 'given (ltb p 64) (say_pair n (f p) p)' 'given (ltb p 64 && true) (say_pair n (f p) p)'

# ---- What 31 and 32 name (M-105)

table=(WholeClash whole_clash)
mistell "31 and 32 with the lowest task, as document 01 had it" Numbers.antt \
    '(say_xy n i (f i)) rest' '(say_xy n i (lowest (bit (f i)))) rest'
mistell "31 and 32 with the lowest task's bit alone" Numbers.antt \
    '(say_xy n i (f i)) rest' '(say_xy n i (2 ^ lowest (bit (f i)))) rest'
mistell "31 and 32 with the clashes of all owners together" Numbers.antt \
    '(say_xy n i (f i)) rest' '(say_xy n i (masks.joined 64 f (2 ^ 64 - 1))) rest'
mistell "31 and 32 with the mask of the highest owner" Numbers.antt \
    '(say_xy n i (f i)) rest' '(say_xy n i (f (63 - lowest (λ o. has_some f (63 - o))))) rest'
mistell "31 and 32 that name the highest owner" Numbers.antt \
    '(say_xy n i (f i)) rest' '(say_xy n (63 - lowest (λ o. has_some f (63 - o))) (f i)) rest'
mistell "31 and 32 with the gained tasks instead of the owned ones" Numbers.antt \
    'picked (λ t. meet (sme t) gain) owned' 'picked (λ t. meet (sme t) owned) gain'
mistell "31 and 32 with all that the owner owns" Numbers.antt \
    'picked (λ t. meet (sme t) gain) owned' 'only (meet (picked (λ t. meet (sme t) gain) owned) owned) owned'
mistell "31 and 32 by the rows of the gained tasks" Numbers.antt \
    'picked (λ t. meet (sme t) gain) owned' 'picked (λ t. ltb (lowest (λ v. bit gain v && bit (sme v) t)) 64) owned'
tell "31 and 32 with a test that adds nothing" Numbers.antt \
    'picked (λ t. meet (sme t) gain) owned' 'picked (λ t. meet (sme t) gain && true) owned'

# ---- Written another way

same "20 with a test that adds nothing" Numbers.antt 'given (eqb a b) (say 20' 'given (eqb b a || false) (say 20' Pairs own_binding
same "the two bits of a pair taken back in the other order" Requests.antt \
    'take_pair rows a b = take_from (take_from rows b a) a b' 'take_pair rows a b = take_from (take_from rows a b) b a' PairsBack dme_back
same "25 and 26 with their two tests swapped" Numbers.antt 'bit mine a && bit mine b' 'bit mine b && bit mine a' Pairs role_owns
same "27 and 28 with their three tests in another order" Numbers.antt \
    'bit xs u && (bit (rows u) v && bit ys v)' '(bit ys v && bit xs u) && bit (rows u) v' Pairs chained_sme
same "31 and 32 with the two sides of a meeting swapped" Numbers.antt 'meet (sme t) gain' 'meet gain (sme t)' Staff senior_gains
same "33 and 34 with the two sides swapped" Numbers.antt \
    'eqb (subject_in (d.cell b t)) (suc c)' 'eqb (suc c) (subject_in (d.cell b t))' Orders held_dme
same "the role group with its two tables swapped" Trade.antt 'group (mixed d SB RB) t' 'group (mixed d RB SB) t' Pairs mixed_chain
same "rule 3 with its two tables swapped" Audit.antt 'apart (d.row SME) (d.row DME)' 'apart (d.row DME) (d.row SME)' Pairs also_dme
same "rule 9 with a test that is always true" Audit.antt \
    'hands_apart d s = pair_free (d.row SME) (held_anywhere d s)' 'hands_apart d s = true && pair_free (d.row SME) (held_anywhere d s)' Orders held_elsewhere

wait
for n in $(seq "$bent_count"); do
    { read -r claim; read -r what; read -r trial; } <"$bent/$n.asked"
    case $claim in
    refuted) what="bent: $what. Demand 3 is refuted at the trial $trial" ;;
    switched) what="bent: $what. That only kind 11 changes an active word is refuted at the trial $trial" ;;
    stays) what="another wording: $what. The active word still stays at the trial $trial" ;;
    disordered) what="bent: $what. That the order of clicking does not matter is refuted at the trial $trial" ;;
    traced) what="bent: $what. That what is taken back leaves no trace is refuted at the trial $trial" ;;
    ordered) what="another wording: $what. The order still does not matter at the trial $trial" ;;
    untraced) what="another wording: $what. It still leaves no trace at the trial $trial" ;;
    stands) what="another wording: $what. The trial $trial still holds" ;;
    mistold) what="bent: $what. The table $trial is told otherwise" ;;
    told) what="another wording: $what. The table $trial is still told" ;;
    esac
    holds "$what" bent_shown "$(cat "$bent/$n.told")"
done
rm -rf "$bent"

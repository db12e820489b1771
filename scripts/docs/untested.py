"""Lists the public calls that no worked example shows.

Looked for are the public calls of the library crates, as `krates_sources.public_calls` has them. A test is code in a
crate whose name ends in `_tests`. A method is named by `.name(` or `Type::name`, a function of a type by
`Type::name`, and any other function by `name(`. So a method counts as tested where another type's method of that name
is called: what is listed is untested, and what isn't may be. Laws are left out: they answer nothing that a test could
compare.

A call that only the crates above are to make may be shown by another instead: SHOWN_BY has that one, which a test
names, for each such call. An entry that isn't needed any more is reported.
"""
import re

from krates_sources import ROOT, libraries, public_calls

# What only tests use; what programs do on their machine, which the cases of the programs show; and what the static
# library exports, which is tried from Rust and C.
LEFT_OUT = ("krates_samples", "krates_host", "krates_c")

# The files whose public functions are laws.
LAWS = ("laws.rt", "comparisons.rt")

# The calls that the crates above make for their own answers, by the call whose worked examples show them. A body that
# always gave up would be seen there.
SHOWN_BY = {
    # the line that a command reads of what cargo wrote
    "MetadataCommand::json_line": ("first_object_line",),
    # a cfg expression asks whether a target has a family or a feature
    "Expression::eval": ("has_text",),
    # a struct of many fields is copied four fields at a time
    "TargetInfo::clone": ("four_copies",),
    # what a setting has is asked of the setting
    "ignores": ("IgnoredKinds::with", "IgnoredKinds::has"),
    # a checker with an index looks at the corrected document, and asks what each fact of a list gives
    "check_closed": (
        "corrected Document::means FactSet::of FactSet::has_crate FactSet::has_feature ClosureCheck::are_roots_in"
        " ClosureCheck::is_crate_in ClosureCheck::is_kept_in ClosureCheck::is_named_in ClosureCheck::is_dep_in"
        " ClosureCheck::are_edges_to_in"
    ).split(),
    # one step is asked by the number of its premises
    "check": ("from_nothing", "from_one", "from_two"),
    # as what an edge is declared: by name, version and source
    "Document::declared": (
        "version_of declared_of is_name_of folded_order named_places places_under NodeEntry::declared_at"
        " places_for NodeParts::entry_at parts_of is_same_info"
    ).split(),
    # a document that is asked looks its crates, features and names up
    "Document::new": ("lookup_of", "at_number"),
    "Document::is_open": (
        "Document::node_place child_place Document::crate_number node_number child_number_at"
    ).split(),
    "Document::is_root": ("Document::is_member", "is_root_member"),
    "Document::lists": ("Document::feature_number", "features_at", "listed_feature"),
    "Document::values": ("values_at",),
    # a certificate is judged under a choice's setting, beside the words that mean it
    "run_under": (
        "Choice::words Choice::stated StatedSetting::words StatedSetting::agrees CertificateSubject::agrees"
    ).split(),
    "Document::referent": ("is_library_rename",),
    "Document::referents": ("referents_of",),
    "Document::roots": ("Document::root_choice",),
    # what follows is that of clauses, which may name more facts as they are written
    "Derived::of": ("Clauses::grow",),
    # what is built has its lists whole
    "units_of": ("Units::agrees", "Units::derived"),
    "BuiltCrates::of": ("BuiltCrates::agrees",),
    # a selection is made of what a document has
    "select": (
        "select_in Context::exclusions Context::availability_at Work::new Work::count_krate"
        " Work::count_feature Reason::by_nothing Reason::by_one Reason::by_two put_krate enable toggle"
        " Document::packages Document::nodes Document::node_ids Document::feature_count Document::agrees"
        " expand expand_entry links_of Links::kept Links::is_asked Links::let_wait kept_edges kept_features"
        " kept_toggled KeptTables::crate_at KeptTables::new"
    ).split(),
    # the graph of a build: its outline, nodes and edges, and how they are stored
    "build_with_metadata": (
        "NumberedOutline::of NumberedOutline::plan_nodes NumberedOutline::plan"
        " store_edges in_order starts_of divide handed_over"
    ).split(),
    # the steps that a build keeps, and those of them that lead to a node
    "facts": ("KeptTables::kept_steps",),
    "why": ("Explanation::derivation_of", "step_of"),
    # what is read as a document is listed, and what is read as a certificate is judged
    "run": ("listing_of", "CertificateSubject::judge", "CertificateSubject::judge_bytes"),
    # a certificate of a build is judged under the words of its setting, with the machines that these name
    "judge_bytes": (
        "BuildSubject::new BuildSubject::names BuildSubject::judge BuildSubject::line build_setting_words resolver_name"
    ).split(),
    # a refusal is returned with its status
    "hand_over": ("CallRefusal::status",),
    # what a word of `cargo krates` answers is made of values, which its text and its JSON show
    "Reporter::answer": (
        "duplicates lacking materials is_unreachable DependencyEdge::all_in EnabledFeature::all_in DirectLinks::order"
        " Snapshot::of_graph OrderedCrates::of OrderedCrates::is_order LinkedCrates::picture push_begin push_box"
        " push_arrow push_end DirectLinks::dependents"
        " DirectLinks::dependencies DirectLinks::of DirectLinks::leads DirectLinks::tree Builds::of"
        " Builds::all Builds::agree Builds::uses Packages::one Packages::any Bill::of"
        " Changed::between Difference::between Duplicates::of licences Tree::of ExplainedFeatures::of"
        " Bill::text Lines::new Lines::end kept_crates list_json ids_json string JsonObject::new JsonObject::text"
        " JsonObject::object JsonObject::versioned Values::new Values::add Values::list Tree::drawn_by without"
        " FeatureList::new TreeWords::has_features"
    ).split(),
    # what it answers by what cargo builds is made of the crates that are built, at positions, with heads in trees
    "BuildReporter::new": ("DirectLinks::of_pairs", "Build::of", "Build::crates", "head_number"),
    # by build, cargo is told other words than those of the command line
    "asked_of": ("CargoWords::for_build",),
    # what words leave unsaid is what a program does that can't read any
    "Shell::new": ("ShellWords::unsaid",),
}


def is_named(owner, name, is_method, tests):
    """Whether the tests name a call of this name, of the type that has it, if any."""
    if owner is None:
        return bool(re.search(rf"\b{name}(?:::<[^(]*>)?\(", tests))
    of_type = rf"\b{owner}(?:::<[^(]*>)?::{name}\b"
    return bool(re.search(of_type, tests) or (is_method and re.search(rf"\.{name}(?:::<[^(]*>)?\(", tests)))


def untested(tests):
    """The public calls that no test names, each with its place."""
    for source in libraries(LEFT_OUT):
        for call in public_calls(source):
            is_law = call.path.name in LAWS
            if not is_law and not is_named(call.owner, call.name, call.is_method, tests):
                name = f"{call.owner}::{call.name}" if call.owner else call.name
                yield f"{call.path.relative_to(ROOT)}:{call.line}", name


def check():
    """Whether each public call is shown, and each entry of SHOWN_BY needed; prints what isn't."""
    tests = "\n".join(path.read_text(encoding="utf-8") for path in sorted(ROOT.glob("crates/*_tests/src/**/*.rt")))
    shown = {call for some in SHOWN_BY.values() for call in some}
    found = list(untested(tests))
    listed = [f"{place}: {call}" for place, call in found if call not in shown]
    for by in SHOWN_BY:
        owner, _, name = by.rpartition("::")
        if not is_named(owner or None, name, True, tests):
            listed.append(f"scripts/docs/untested.py: no test names {by}, which is to show others")
    for call in sorted(shown - {call for _, call in found}):
        listed.append(f"scripts/docs/untested.py: {call} is tested, or gone")
    for line in listed:
        print(line)
    print(f"{len(listed)} calls that no worked example shows; {len(shown)} are shown by those of another call")
    return not listed

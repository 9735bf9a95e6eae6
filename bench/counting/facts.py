"""The facts of graphs that bench/counts counts, the functions that make each, and what may be made more
than once."""

# The functions that make each fact, with the number of the argument that says of which graph it is
# (from 0, and the place of a result that is written to memory counts too), what that argument is,
# and what else says which fact it is. A function counts once with one of the same fact and graph
# that calls it.
MAKERS = {
    # a maximum matching of the graph without a set
    "matching": {
        "match_search::best::find_best": "1 graph set",
        "match_search::best::find_mates": "1 graph set",
        "match_core::frames::maximum": "1 graph none",
        "match_core::frames::frame": "1 graph none",
        "match_core::questions::perfect_without": "1 graph set",
    },
    # the Gallai-Edmonds sets, with a matching that shows them
    "gallai": {
        "match_core::frames::frame": "1 graph",
        "match_core::frames::maximum": "1 graph",
        "gallai_edmonds::three_sets::sets": "1 graph",
        "gallai_edmonds::three_sets::sets_of": "1 facts",
    },
    # the table of partners in the graph without a set
    "table": {
        "match_core::partner_table::partners": "0 graph set",
        "match_core::partner_table::all_partners": "0 graph none",
        "match_core::partner_table::rows_from": "0 graph set",
        "allowed_edges::perfect::partners_where_perfect": "1 graph none",
    },
    # one row of such a table
    "row": {
        "match_search::missable::missable_beside": "0 instance 2",
        "match_search::missable::missable_in": "0 instance 3",
        "ear_core::matched::partners_from": "0 neighbours row",
    },
    # two sides, or that there are none
    "sides": {
        "graph_core::graph::MultiGraph::two_sides": "1 graph",
        "graph_core::graph::MultiGraph::parts_and_sides": "1 graph",
        "graph_core::sides::parts_and_side": "1 graph",
        "graph_facts::layers::Layers::of": "0 graph",
        "graph_facts::covered_graph::Covered::of": "1 graph",
        "graph_facts::covered_graph::Covered::of_connected": "1 graph",
        "graph_facts::covered_graph::Covered::known": "1 graph",
        "graph_facts::covered_graph::parts_of": "1 graph",
        "graph_facts::covered_graph::Covered::kept": "1 graph",
    },
    # the components of the graph without a set
    "parts": {
        "graph_core::search::grow_forest": "1 rows set",
        "graph_core::search::parts_without": "1 rows set",
        "graph_core::graph::MultiGraph::components_without": "0 neighbours set",
    },
    # a graph at a partition
    "quotient": {
        "contraction::contracted::quotient": "1 graph partition",
        "contraction::contracted::quotient_by": "1 graph partition",
        "contraction::graph_alone::quotient_graph": "1 graph partition",
        "contraction::place_pairs::joined_places": "1 graph partition",
    },
    # a partition: the single vertices, or one with blocks that are merged
    "partition": {
        "contraction::partition::Partition::singles": "1 singles",
        "contraction::partition::Partition::merge": "1 merged",
    },
    # where the ends of the edges lie at a partition
    "places": {"contraction::placed_edges::PlacedEdges::of": "1 graph partition"},
    # a list of matchings that says which edges lie together; the last two begin at most one
    "pairs": {
        "allowed_edges::pairs::no_pairs": "1 graph",
        "allowed_edges::pairs::together": "1 graph",
        "allowed_edges::pair_table::PairTable::new": "1 graph",
        "tight_cuts::matchings::Matchings::new": "1 covered",
        "tight_cuts::finder::add_network_cuts": "0 covered",
        "tight_cuts::finder::listed_after": "0 covered",
    },
    # whether two edges lie together
    "pair": {"allowed_edges::questions::perfect_with_pair": "1 graph edges"},
    # the candidates, or the first of them
    "candidates": {
        "tight_cuts::finder::listed": "0 pairs",
        "tight_cuts::finder::listed_after": "0 covered",
        "tight_cuts::finder::candidates": "0 graph",
        "tight_cuts::finder::first_candidate": "1 pairs",
        "tight_cuts::finder::first_cut": "1 pairs",
        "tight_cuts::finder::find_any": "1 graph",
        "tight_cuts::front::front_candidates": "0 pairs",
        "tight_cuts::front::first_front_candidate": "1 pairs",
    },
    # the classes
    "classes": {
        "barrier_kit::canonical_partition::classes": "0 graph",
        "barrier_kit::canonical_partition::classes_of": "0 covered",
    },
    # the first pair that shows a graph not bicritical
    "unlike": {
        "separation_kit::first_pairs::FirstPairs::of": "1 covered",
        "separation_kit::first_pairs::FirstPairs::with_classes": "1 covered",
        "separation_kit::critical::equivalent_pair": "0 covered",
        "separation_kit::critical::first_equivalent": "0 graph",
        "separation_kit::critical::not_bicritical": "1 graph",
    },
    # the first cut pair
    "cutpair": {"separation_kit::critical::cut_pair": "0 graph"},
}

# Functions of the sources that return such things (`MADE`) and make no fact of their own: what they
# return is given or is part of a fact above, or they only call functions above.
OTHERS = """
    graph_core::search::search graph_facts::covered_graph::Covered::from_facts
    graph_facts::facts::Facts::of graph_facts::layers::Layers::after
    match_core::lazy_partners::LazyPartners::new match_core::partner_table::enlarged
    ear_core::outer_table::OuterTable::take mcg6_lines::elementary_lines::parts_of
    match_search::best::best_from separation_kit::critical::parts_without
    separation_kit::first_pairs::FirstPairs::equivalent separation_kit::first_pairs::FirstPairs::cut
    separation_kit::first_pairs::FirstPairs::any_cut
    separation_kit::first_pairs::cut_where_bicritical
    barrier_kit::shores::barrier_cuts barrier_kit::shores::barrier_cuts_of
    separation_kit::shores::separation_cuts
    tight_cuts::at_places::candidates_at_place tight_cuts::at_places::candidates_from_clusters
    tight_cuts::at_places::first_at_place
    tight_cuts::at_places::listed_at tight_cuts::at_places::first_listed_at
    tight_cuts::candidate::CandidateList::get tight_cuts::finder::first_flood_cut
    tight_cuts::finder::first_after
    tight_cuts::finder::first_of_bipartite tight_cuts::front::barrier_candidates
    tight_cuts::front::separation_candidates tight_cuts::front::first_barrier_candidate
    tight_cuts::front::first_separation_candidate contraction::partition::Partition::copy
""".split()
MADE = """
    Best Mated Found FrameSets ThreeSets PartnerTable LazyPartners Sides Layers Forest Contracted
    PlacedEdges PairTable Matchings CandidateList Candidate FirstPairs Facts Covered SetList Partition
""".split()

# Facts that cannot be seen in a program, since the compiler has put each function into its callers.
UNSEEN = {"mcg places", "mcg unlike", "mcg6 unlike"}

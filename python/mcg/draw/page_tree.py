"""The part of a page on the tree of a decomposition, with the graph at each node."""
from __future__ import annotations

from typing import List

from .decompositions import MOST_LEAVES
from .hypertext import drawing, equation, listed, runs, safe
from .maps import lettered
from .nodes import LeafMark, NamedSet, Names, Node, PlainTree, leaf_marks, smaller
from .outlines import outline
from .panels import TreeStyle, panel
from .tree_pictures import link_words


class TreePart:
    """The tree of a decomposition on a page: nested parts that can be opened, or for many leaves a
    map first. The places of the tree are found."""

    def __init__(self, tree: PlainTree, names: Names) -> None:
        self.tree, self.names = tree, names
        self.shared = TreeStyle(tree.whole, names)
        self.marks: List[LeafMark] = leaf_marks(len(tree.leaves))

    def html(self) -> str:
        """Returns the part."""
        tools = ""
        if self.tree.cuts:
            buttons = (("all", "open all"), ("none", "close all"))
            made = " ".join(
                f'<button type="button" data-open="{a}">{b}</button>' for a, b in buttons
            )
            tools = f'<p class="tools">{made}</p>'
        told = ", ".join(f"<b>{safe(a)}</b> {safe(b)}" for a, b in self.shared.key)
        key = f'<p class="small">{told}</p>' if told else ""
        body = self._node(self.tree.root)
        if len(self.tree.leaves) <= MOST_LEAVES:
            return f'{tools}{key}<div class="tree">{body}</div>'
        return self._map() + f'{tools}{key}<div class="tree deep">{body}</div>' + self._paper()

    def _map(self) -> str:
        """The lettered graph and the outline, whose nodes lead to the graphs."""
        graph = lettered(self.tree, self.names, self.marks)
        line = outline(self.tree, self.names, self.marks, captions=True, links=True)
        both = drawing(graph, "the graph, its vertices lettered by leaves") + drawing(
            line, "the tree"
        )
        words = "Every vertex has the letter of the leaf in which it stays single."
        return f'<p>{words} A node of the tree leads to its graph.</p><figure class="map two">{both}</figure>'

    def _paper(self) -> str:
        """All leaves side by side, for paper."""
        figures = "".join(f"<figure>{self._drawing(node)}</figure>" for node in self.tree.leaves)
        return f'<div class="paper leaves">{figures}</div>'

    def _drawing(self, node: Node) -> str:
        is_lettered = not node.below and len(self.tree.leaves) > 1
        mark = self.marks[node.number] if is_lettered else None
        letter, tint = (mark.letter, mark.tint) if mark else ("", None)
        scene, _ = panel(node, self.shared, tint, letter)
        if node.shore is None:
            return drawing(scene, f"leaf {letter}, a {node.kind}".replace(" ,", ","))
        shore = ", ".join(node.whole.names[v] for v in sorted(node.shore))
        return drawing(scene, f"the graph with its shore {{{shore}}}")

    def _node(self, node: Node) -> str:
        """A node with its drawing, and below it in a part that can be opened what is below."""
        label = f'<p class="edge">{runs(link_words(node, self.names))}</p>' if node.above else ""
        squares = [
            equation(node.whole, NamedSet(self.names[block], block))
            for block in node.blocks
            if len(block) > 1
        ]
        note = f'<figcaption>{listed(squares, "squares")}</figcaption>' if squares else ""
        head = f'<div class="node" id="n{node.path}" tabindex="-1">{label}'
        found = f"{head}<figure>{self._drawing(node)}{note}</figure>"
        if node.shore is not None:
            named = smaller(node.shore, node.whole.order, self.names)
            found += f"<details open><summary>contract: {equation(node.whole, named)}</summary>"
            found += listed([self._node(it) for it in node.below], "pair") + "</details>"
        return found + "</div>"

"""The library for ring 0, which install/libraries writes beside the other: what docs/EMBEDDING.md promises of it alone."""
import object_code
import test_embed
from stack import RING0


class ObjectCode(test_embed.ObjectCode):
    library = RING0
    beyond_general = set()

    def test_nothing_stands_below_the_stack_pointer(self):
        self.assertEqual([name for name, function in object_code.functions(RING0).items() if function.red_zone()], [])


class Stack(test_embed.Stack):
    library = RING0

    # shown by the other library
    test_the_page_states_every_function = None
    test_the_headers_figure_is_that_of_both_tables = None


class Linked(test_embed.Linked):
    library = RING0

    def test_without_a_c_library(self):
        words = [*test_embed.BARE, '-mgeneral-regs-only', '-mno-red-zone', '-static']
        self.gives_the_image(self.built('gcc', '-std=c11', *words, self.source, *test_embed.whole(RING0)))

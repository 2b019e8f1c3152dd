"""The stack's need is read rightly from code whose need is known, and code whose need can't be read is refused."""

import unittest

import stack


def code(**functions):
    """A disassembly as objdump -dr shows it, of functions written as lines; `@name` after a line is what it is linked to."""
    lines = []
    for name, text in functions.items():
        lines.append(f"0000000000000000 <{name}>:")
        for place, line in enumerate(text.strip().splitlines()):
            step, _, target = line.strip().partition(" @")
            lines.append(f"   {place:x}:\t{step}")
            if target:
                lines.append(f"\t\t\t{place:x}: R_X86_64_PLT32\t{target}-0x4")
    return "\n".join(lines)


class NeedTest(unittest.TestCase):
    def need(self, text, **others):
        return stack.needs(code(nb_one=text, **others))["nb_one"]

    def test_a_leaf_needs_its_return_address(self):
        self.assertEqual(self.need("mov    eax,edi\nret"), 8)

    def test_pushes_and_the_frame(self):
        self.assertEqual(self.need("push   rbx\nsub    rsp,0x20\nadd    rsp,0x20\npop    rbx\nret"), 8 + 8 + 32)

    def test_what_lies_below_the_stack_pointer(self):
        self.assertEqual(self.need("mov    QWORD PTR [rsp-0x18],rax\nret"), 8 + 24)
        for step in ("mov    BYTE PTR [rsp+rax*1-0x9],cl", "mov    QWORD PTR [rax*8+rsp-0x70],rcx", "mov    rbp,rsp", "add    rax,rsp"):
            self.assertEqual(self.need(f"push   rbx\n{step}\npop    rbx\nret"), 8 + 8 + 128)
            self.assertEqual(self.need(f"push   rbx\n{step}\ncall   5 <x> @memcpy\npop    rbx\nret"), 8 + 8 + 8)
        self.assertEqual(self.need("sub    rsp,0x10\nlea    rdi,[rsp+0x8]\nmov    eax,DWORD PTR [rsp]\nadd    rsp,0x10\nret"), 8 + 16)

    def test_a_call_needs_what_is_called(self):
        callee = "push   rbp\npush   rbx\npop    rbx\npop    rbp\nret"
        self.assertEqual(self.need("push   rax\ncall   5 <x> @.text.two\npop    rax\nret", two=callee), 8 + 8 + 8 + 16)
        self.assertEqual(self.need("push   rax\npop    rax\njmp    5 <x> @.text.two", two=callee), 8 + 16)
        self.assertEqual(self.need("push   rax\ncall   5 <x> @memcpy\npop    rax\nret"), 8 + 8 + 8)
        self.assertEqual(self.need("je     5 <x> @.text.two\nret", two=callee), 8 + 16)

    def test_the_deeper_of_two_paths(self):
        self.assertEqual(self.need("je     4 <x>\npush   rbx\npop    rbx\nret\nsub    rsp,0x40\nadd    rsp,0x40\nret"), 8 + 64)
        self.assertEqual(self.need("jmp    0 <x>"), 8)

    def test_a_loop_is_followed_once(self):
        turns = "sub    rsp,0x18\nmovsd  QWORD PTR [rsp+0x8],xmm0\ndivsd  xmm0,QWORD PTR [rsp+0x8]\nsub    eax,0x1\njne    1 <x>\nadd    rsp,0x18\nret"
        self.assertEqual(self.need(turns), 8 + 24)
        self.assertEqual(self.need("movaps XMMWORD PTR [rsp-0x28],xmm0\nsub    eax,0x1\njne    0 <x>\nret"), 8 + 40)
        with self.assertRaises(stack.Unreadable):
            self.need("push   rbx\nsub    eax,0x1\njne    0 <x>\npop    rbx\nret")

    def test_what_cannot_be_read(self):
        for text in ("and    rsp,0xffffffffffffffe0\nret", "jmp    rax", "call   rax\nret", "sub    rsp,rax\nret", "push   rbx\nret",
                     "je     2 <x>\npush   rbx\npop    rbx\nret", "leave\nret", "xchg   rax,rsp\nret", "mov    rsp,rbp\nret", "lea    rsp,[rbp-0x8]\nret", "call   0 <x> @.text.nb_one\nret",
                     "call   0 <x> @malloc\nret"):
            with self.assertRaises((stack.Unreadable, ValueError), msg=text):
                self.need(text)

    def test_the_header_is_compared(self):
        said = stack.said_in("#define NB_ONE_STACK 48u\n#define NB_TWO_STACK 8u\n#define NB_OTHER 9u\n")
        self.assertEqual(said, {"nb_one": 48, "nb_two": 8})
        self.assertEqual(stack.differences({"nb_one": 48, "nb_two": 8}, said), [])
        self.assertEqual(len(stack.differences({"nb_one": 56, "nb_two": 8}, said)), 1)
        self.assertEqual(len(stack.differences({"nb_one": 48}, said)), 1)
        self.assertEqual(len(stack.differences({"nb_one": 48, "nb_two": 8, "nb_three": 8}, said)), 1)

    def test_what_calls_took_is_compared(self):
        said = {"nb_one": 480, "nb_two": 8}
        self.assertEqual(stack.excesses({"nb_one": 480, "nb_two": 0}, said), [])
        for used in ({"nb_one": 480, "nb_two": 9}, {"nb_one": 481}, {"nb_one": 352}, {"nb_two": 8}, {"nb_one": 480, "nb_three": 1}):
            self.assertEqual(len(stack.excesses(used, said)), 1, used)


if __name__ == "__main__":
    unittest.main()

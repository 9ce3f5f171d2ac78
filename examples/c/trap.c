/* Executes an instruction that traps. */
int main(void) { __builtin_trap(); }

/*
 * check.c: the check of dist/ on a board, where a program has no words: its main is called check_main here. For tests alone.
 */
int check_main(int words, char **argv);
int main(void);

int main(void) {
    char *argv[] = {"check", SCRIPTS, "scripts", "wrong", "first", 0};
    return check_main(5, argv);
}

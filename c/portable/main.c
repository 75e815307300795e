/* ---- The program ------------------------------------------------------------------------------------------------- */

int main(int count, char **given) {
    static machine whole;
    word_count = count;
    words = given;
    if (wasm_rt_grow_memory(&whole, PAGES) != 0) {
        fputs("out of memory\n", stderr);
        return 1;
    }
    init_globals(&whole);
    init_memories(&whole);
    init_rest(&whole);
    int status = (int)w2c_main(&whole, 0, 0);
    free(whole.data);
    return status;
}

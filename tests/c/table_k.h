/* The text of table K, the small table of all examples. */
static const char table_k[] =
    "<code_set_name> \"kettle-1\"\n"
    "<mb_cur_min> 1\n"
    "<mb_cur_max> 2\n"
    "<uconv_class> \"MBCS\"\n"
    "<subchar> \\x3F\n"
    "<icu:state> 2d, 30, 33, 3f, 81:1\n"
    "<icu:state> 7c-7d, 80.u\n"
    "CHARMAP\n"
    "<U002D> \\x2D |0\n"
    "<U0030> \\x30 |0\n"
    "<U0033> \\x33 |0\n"
    "<U2212> \\x81\\x7C |0\n"
    "<UFF0D> \\x81\\x7C |1\n"
    "<U2212> \\x81\\x7D |3\n"
    "END CHARMAP\n";

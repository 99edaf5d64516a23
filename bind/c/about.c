/* What is known without a handle: the version, and what a code means. texts.h is written by bind/texts. */
#include "ilpstream.h"
#include "texts.h"

const char *ilp_version(void) { return ILP_VERSION; }

const char *ilp_error_text(ilp_code code) {
    const char *text = code < sizeof texts / sizeof *texts ? texts[code] : NULL;
    return text ? text : "no code of this library";
}

int ilp_is_no_memory(ilp_code code) {
    return code == ILP_PACKET_NO_MEMORY || code == ILP_STREAM_NO_MEMORY || code == ILP_KEYS_NO_MEMORY ||
           code == ILP_HOP_NO_MEMORY || code == ILP_NO_MEMORY || code == ILP_HTTP_NO_MEMORY;
}

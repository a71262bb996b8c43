/* Calls nothing of the archive. */
#include "yoksimert.h"

int main(void) { return YOKSIMERT_VERSION == 0; }

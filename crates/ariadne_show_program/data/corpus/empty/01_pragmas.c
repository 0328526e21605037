// Messages that say nothing.
#pragma message ""
#pragma GCC warning ""
	/* ä */
#pragma GCC error ""
int shown;

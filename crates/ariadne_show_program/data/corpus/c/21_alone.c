#pragma message "a note by itself"
#warning a warning of the preprocessor
int kept;
#error an error of the preprocessor

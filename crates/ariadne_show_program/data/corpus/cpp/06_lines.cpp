struct Text { const char *it; };
Text operator+(Text a, Text b);
int count(Text,
          Text);
int main() {
    Text text{"a"};
    int wrong = (text +
                 text)
        * (text
           + text);
    int far = text
        // a line
        // another line
        // a third line
        // a fourth line
        - 3;
    return count(
        text,
        3,
        wrong
    );
}

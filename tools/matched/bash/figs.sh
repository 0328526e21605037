weigh() {
    wiegh "$1"
}
weigh one
echo $((1 / 0))

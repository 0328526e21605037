weigh() {
    if [ "$1" = pear ]; then
        echo one
}

weigh() {
    echo )
}

package p

const X = Y + 2
const Y = 1

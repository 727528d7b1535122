package size

const Large = Small + 1
const Small = 2

local sum = 0
for _ = 1, REPEAT do
    local head = nil
    for i = 0, 49999 do head = { value = i % 100, next = head } end
    local n = head
    while n do
        sum = (sum + n.value) % 10007
        n = n.next
    end
    while head do head = head.next end
end
print(sum)

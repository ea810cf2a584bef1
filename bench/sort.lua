local a, x, sum, count = {}, 1, 0, 1000
for _ = 1, REPEAT do
    for i = 0, count - 1 do
        x = (x * 75 + 74) % 65537
        a[i] = x
    end
    for i = 1, count - 1 do
        local v, j = a[i], i
        while j > 0 and a[j - 1] > v do
            a[j] = a[j - 1]
            j = j - 1
        end
        a[j] = v
    end
    sum = (sum + a[count // 2]) % 10007
end
print(sum)

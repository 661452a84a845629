#pragma once

struct Named {
    const char *name;
    explicit Named(const char *);
    ~Named();
};

class Shape {
public:
    virtual ~Shape() = default;
    virtual int area() const = 0;
    virtual const char *name() const
    {
        return "shape";
    }
};

class Oblong : public Shape {
    int width, height;

public:
    Oblong(int, int);
    ~Oblong() override;
    int area() const override;
};

class Square final : public Oblong {
public:
    explicit Square(int);
    const char *name() const override;
};

void counted();

// 1 once its global is made, 11 once it is gone
int rounds();

procedure Main is type T is record V : Integer := 0; end record; N : Integer := 0; begin null; end Main;

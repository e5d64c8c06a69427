with Ada.Text_IO;
procedure Main is
procedure One is begin declare type T is record V : Integer := 0; end record; type L is access T; A : L; begin null; end; end One;
begin One; end Main;

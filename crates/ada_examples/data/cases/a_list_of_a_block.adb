with Ada.Text_IO; with Ada.Unchecked_Deallocation;
procedure Main is
type Node; type Link is access Node;
type Node is record Value : Integer := 0; Next : Link; end record;
procedure Free is new Ada.Unchecked_Deallocation (Node, Link);
Outer : Link := new Node'(1, null);
begin
declare
type Cell; type Chain is access Cell; type Cell is record To : Link; More : Chain; end record;
Top : Chain := new Cell'(Outer, null);
begin
Top := new Cell'(null, Top);
Ada.Text_IO.Put_Line (Integer'Image (Top.More.To.Value));
Outer := Top.More.To; Top.More.To := null;
end;
Ada.Text_IO.Put_Line (Integer'Image (Outer.Value));
Free (Outer);
end Main;

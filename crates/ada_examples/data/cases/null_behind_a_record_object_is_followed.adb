with Ada.Text_IO; with Ada.Unchecked_Deallocation; with Run_Input;
procedure Main is
type Node; type Link is access Node;
type Node is record Value : Integer := 0; Next : Link; end record;
procedure Free is new Ada.Unchecked_Deallocation (Node, Link);
type List is record Head : Link; Count : Integer := 5; end record;

R : List;
begin
begin
Ada.Text_IO.Put_Line (Integer'Image (R.Head.Value));
exception when Constraint_Error => Ada.Text_IO.Put_Line ("null"); R.Head := new Node'(R.Count, null);
end;
Ada.Text_IO.Put_Line (Integer'Image (R.Head.Value));
R.Head.Next.Value := 1;
exception when others => Ada.Text_IO.Put_Line (Integer'Image (R.Count));
end Main;

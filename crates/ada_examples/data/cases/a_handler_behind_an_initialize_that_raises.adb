--  A statement that creates an object may raise what Initialize raises: where the handler begins, the node has been moved, or
--  it has not.
with Ada.Finalization; with Ada.Text_IO; with Run_Input;
procedure Main is
   type Node is record Value : Integer := 0; end record;
   type Link is access Node;
   type Reading is new Ada.Finalization.Limited_Controlled with record Value : Integer := 0; end record;
   type Note is access Reading;
   overriding procedure Initialize (Object : in out Reading);
   procedure Initialize (Object : in out Reading) is
   begin Run_Input.Get (Object.Value); end Initialize;
   A : Link := new Node'(Value => 1);
   B : Link;
   N : Note;
begin
   B := A;
   N := new Reading;
   A := B;
exception
   when Run_Input.End_Error => Ada.Text_IO.Put_Line (Integer'Image (A.Value));
end Main;

with Ada.Finalization; with Ada.Text_IO; with Ada.Unchecked_Deallocation;
procedure Main is
   Unbalanced : exception;
   type Node;
   type Link is access Node;
   type Node is record Value : Integer := 0; Next : Link; end record;
   type List is new Ada.Finalization.Limited_Controlled with record Head : Link; Count : Integer := 0; end record;
   overriding procedure Finalize (Object : in out List);
   procedure Free is new Ada.Unchecked_Deallocation (Node, Link);
   overriding procedure Finalize (Object : in out List) is
      Rest : Link;
   begin
      begin
         while Object.Head /= null loop
            if Object.Count = 0 then
               raise Unbalanced;
            end if;
            Object.Count := Object.Count - 1;
            Rest := Object.Head.Next;
            Object.Head.Next := null;
            Free (Object.Head);
            Object.Head := Rest;
            Rest := null;
         end loop;
         Ada.Text_IO.Put_Line ("balanced");
      exception
         when Unbalanced =>
            Ada.Text_IO.Put_Line (Integer'Image (Object.Head.Value));
            Rest := Object.Head.Next;
            Object.Head.Next := null;
            Free (Rest);
            Free (Object.Head);
      end;
      Ada.Text_IO.Put_Line (Integer'Image (Object.Count));
   exception
      when Constraint_Error => Ada.Text_IO.Put_Line ("not reached");
   end Finalize;
   Fits : List;
   Over : List;
begin
   Fits.Head := new Node'(Value => 3, Next => null);
   Fits.Count := 2;
   Over.Head := new Node'(Value => 8, Next => null);
   Over.Head := new Node'(Value => 9, Next => Over.Head);
   Over.Head := new Node'(Value => 7, Next => Over.Head);
   Over.Count := 1;
end Main;
